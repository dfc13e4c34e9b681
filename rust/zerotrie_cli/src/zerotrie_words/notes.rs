// Made from crates/zerotrie_words/src/notes.rt by rust/make: edit that.
//! Sections of the man page on what no option says.

/// The sections as requests of roff: a title each, and paragraphs.
pub const NOTES: &str = ".SH LINKS AND PERMISSIONS\n\
    .PP\n\
    OUT is replaced atomically: written to a new file in its folder, .OUT.zerotrie-PID-NUMBER, synced and renamed. So at each moment OUT holds its old \
    bytes or all new ones. OUT, if it exists, and its folder have to be writable. The name of OUT can have 226 bytes.\n\
    .PP\n\
    A signal can leave the new file. The next build of OUT removes it if it is empty or begins as a sealed file and no build locks it. No other file is \
    changed or removed.\n\
    .PP\n\
    A symbolic link stays, and the file that it leads to, which has to exist, is replaced. That file keeps its permission bits (rwx) but no set-id bit; \
    its owner and group are those of a new file. Of a file with two names (hard links) OUT alone is replaced. IN and OUT can't be the same file; with < or \
    > the program can't notice it. OUT can't be a terminal.\n\
    .SH DEVICES AND OPEN FILES\n\
    .PP\n\
    A device or a pipe is written in place, and may have got a beginning of the trie after a fault. /dev/stdin and /dev/fd/0 are standard input, \
    /dev/stdout and /dev/fd/1 are standard output. With another /dev/fd/N the trie is added at the end of the file that is open there: open N by N>> if \
    you write more to it. If such a name is spelled otherwise (/dev//stdout), or a link leads to it, the file that is open there is replaced. A device as \
    FILE or IN is an error unless it begins as a sealed file; - with < reads it.\n\
    .SH WORDS\n\
    .PP\n\
    An option that another one makes useless is an error. The words of a command line are UTF-8. Give keys of other bytes as lines of standard input, or \
    with escapes and --escaped, and files of other names by - and <. A - among other keys, texts or values is an error; with --escaped, the key - is \
    \\x2d. A key or text that begins with a hyphen comes after --; the word of an option that does is written --glob=-x or -g-x, and a file -x is ./-x. \
    Standard input can be only one of FILEs and keys. What is no number below 2^64 has no key. If a key is printed for or beside a value, backslashes in \
    it are escapes, and so are control characters, characters that turn others, byte order marks, and bytes that are not UTF-8.\n\
    .SH INPUT\n\
    .PP\n\
    A byte order mark at the front is left out, and a line may end in CR LF; with --eol lf, which JSON does not take, the carriage return belongs to the \
    line. UTF-16, gzip and sealed tries are errors. All this holds for lines of keys, texts and values, without --eol. In csv an unclosed quote continues \
    to the end of the input, what follows a closing quote belongs to the field, and an empty line is no record. Messages count the line or record that \
    --header skips. --key and --value name columns by the fields of the first line or record, which is a header then, also without --header; each name is \
    there once, and each line or record has a field for each column. In lines an empty line is the empty key. In tsv an empty line is an error. JSON may \
    nest 127 deep. LC_ALL=C sort brings lines that are keys into the order that --sorted asks for, and lines of tsv if no key has an escape or a byte below \
    the tab.\n\
    .PP\n\
    The kinds hash and ext need a hashed table for each place at which 16 bytes or more may follow. For text one is found; for digests there may be none, \
    and the build is an error, as it is if keys were chosen to crowd a bucket of an index.\n\
    .SH MEMORY\n\
    .PP\n\
    All commands but build hold their FILEs (of text or gzip 64 KB) and what they print next; with keys of standard input four bytes a pair more. search \
    and list --sorted, --from, --below and --to hold a state for each byte of the longest key, union and the like OUT. build holds the input, the trie, 24 to 36 \
    bytes a pair, and 24 more if the keys have to be sorted. If a key has an escape or is to be in lower case, or the input is csv or JSON, it copies the keys, with 16 \
    bytes a pair for their lengths and values, and frees the input before the build. Of JSON it also holds the parsed value. It copies the trie to seal \
    it. An index takes 32 bytes a pair, itself and a sealed copy.\n";
