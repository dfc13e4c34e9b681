// Made from crates/zerotrie_words/src/table.rt by rust/make: edit that.
//! The commands, as rows.

use crate::zerotrie_words::arguments::{Argument, Form, Otherwise, Subcommand};
use crate::zerotrie_words::completions::SHELLS;
use crate::zerotrie_words::input::INPUTS;

const KINDS: &[&str] = &["simple", "ignore", "hash", "ext"];

const KINDS_OR_AUTO: &[&str] = &["auto", "simple", "ignore", "hash", "ext"];

const OUTPUTS: &[&str] = &["tsv", "csv", "keys", "values", "json", "jsonl"];

/// The formats of a report.
const REPORT_FORMS: &[&str] = &["text", "json"];

const ENDS: &[&str] = &["crlf", "lf"];

/// What can become of a key that several pairs have.
const CHOICES: &[&str] = &["refuse", "first", "last", "sum", "min", "max"];

/// What becomes of a key that several tries have.
const RULES: &[&str] = &["refuse", "first", "last", "sum", "min", "max", "equal"];

const LANGUAGES: &[&str] = &["rust", "c", "rattle", "js"];

const VIEWS: &[&str] = &["dump", "dot"];

/// The version of the program.
pub const VERSION: &str = "0.3.0";

/// The greatest number that an option takes.
const GREATEST: u64 = u64::MAX;

/// The files of tries, one after the other.
const FILES: Argument = Argument {
    name: "FILE",
    form: Form::Words,
    help: "Tries, one after the other; - is standard input",
};

/// The files of tries or indexes, one after the other.
const ALL_FILES: Argument = Argument {
    name: "FILE",
    form: Form::Words,
    help: "Tries and indexes, one after the other; - is standard input",
};

/// The file of a trie or an index.
const ANY_FILE: Argument = Argument {
    name: "FILE",
    form: Form::Place,
    help: "A trie or an index, or - for standard input",
};

/// The file of a trie.
const FILE: Argument = Argument {
    name: "FILE",
    form: Form::Place,
    help: "A trie, or - for standard input",
};

const BARE_KIND: Argument = Argument {
    name: "bare-kind",
    form: Form::OneOf("K", None, KINDS, Otherwise::Nothing),
    help: "Read FILE as bare bytes of this kind",
};

const NO_CHECK: Argument = Argument {
    name: "no-check",
    form: Form::Flag(None),
    help: "Skip the test of the bytes of a file that is not sealed",
};

const PREFIX: Argument = Argument {
    name: "prefix",
    form: Form::Text("P", Some('p'), Otherwise::Nothing),
    help: "Only keys that begin so",
};

const FROM: Argument = Argument {
    name: "from",
    form: Form::Text("A", None, Otherwise::Nothing),
    help: "Only keys from this one on, by their bytes; in kind ignore by those in lower case",
};

const BELOW: Argument = Argument {
    name: "below",
    form: Form::Text("B", None, Otherwise::Nothing),
    help: "Only keys below this one, by their bytes; in kind ignore by those in lower case",
};

const TO: Argument = Argument {
    name: "to",
    form: Form::Text("B", None, Otherwise::Nothing),
    help: "Only keys up to this one, with it",
};

/// How keys and texts are written.
const ESCAPED: Argument = Argument {
    name: "escaped",
    form: Form::Flag(None),
    help: "Read \\t, \\n, \\r, \\\\ and \\xHH, as list writes them",
};

/// The format of pairs that are printed.
const FORMAT: Argument = Argument {
    name: "format",
    form: Form::OneOf("F", Some('f'), OUTPUTS, Otherwise::Nothing),
    help: "The format of the output, else tsv",
};

const LIMIT: Argument = Argument {
    name: "limit",
    form: Form::Number("N", Some('n'), GREATEST),
    help: "At most this many pairs",
};

const TOP: Argument = Argument {
    name: "top",
    form: Form::Number("N", None, GREATEST),
    help: "Only this many pairs of the greatest values, the greatest first",
};

const COUNT: Argument = Argument {
    name: "count",
    form: Form::Flag(Some('c')),
    help: "Print only how many pairs there are",
};

const RAW: Argument = Argument {
    name: "raw",
    form: Form::Flag(Some('r')),
    help: "Print tsv without escapes",
};

const SORTED: Argument = Argument {
    name: "sorted",
    form: Form::Flag(Some('S')),
    help: "Print the pairs in the order of the keys' bytes, as LC_ALL=C sort does",
};

/// The file that is made.
const OUTPUT: Argument = Argument {
    name: "output",
    form: Form::Text("OUT", Some('o'), Otherwise::Refused),
    help: "The file to make, or - for standard output",
};

const NO_CLOBBER: Argument = Argument {
    name: "no-clobber",
    form: Form::Flag(None),
    help: "Refuse the build if OUT is there already",
};

const SUMMARY: Argument = Argument {
    name: "summary",
    form: Form::Flag(None),
    help: "Report what was made on standard error, even if it is no terminal",
};

const QUIET: Argument = Argument {
    name: "quiet",
    form: Form::Flag(Some('q')),
    help: "Report nothing but errors, even on a terminal",
};

const ONLY_ASK: Argument = Argument {
    name: "quiet",
    form: Form::Flag(Some('q')),
    help: "Print nothing: the status alone says whether there is a pair",
};

const KIND: Argument = Argument {
    name: "kind",
    form: Form::OneOf("K", Some('k'), KINDS_OR_AUTO, Otherwise::Is("auto")),
    help: "The kind of the trie: auto is simple for fewer than 512 ASCII keys, else hash",
};

/// The kind of what is made of several tries.
const KIND_OF_ALL: Argument = Argument {
    name: "kind",
    form: Form::OneOf("K", Some('k'), KINDS_OR_AUTO, Otherwise::Is("auto")),
    help: "The kind of OUT: auto is that of the FILEs, or as build takes it if theirs differ",
};

const TAGGED: Argument = Argument {
    name: "tagged",
    form: Form::Flag(Some('t')),
    help: "Put the number of the kind in front, and no checksum",
};

const BARE_OUTPUT: Argument = Argument {
    name: "bare",
    form: Form::Flag(Some('b')),
    help: "Put nothing in front; name the kind too",
};

const INDEX: Argument = Argument {
    name: "index",
    form: Form::Flag(Some('i')),
    help: "Make an index in place of a trie, only for get and verify",
};

/// The files of tries that are combined.
const COMBINED: Argument = Argument {
    name: "FILE",
    form: Form::Words,
    help: "Tries that are sealed or tagged, of any kinds; - is standard input",
};

const VALUES: Argument = Argument {
    name: "values",
    form: Form::OneOf("V", None, RULES, Otherwise::Is("first")),
    help: "The value of a key that several FILEs have, or an error",
};

/// What a command has that makes a file of keys of any of several tries.
const OF_ANY: &[Argument] = &[
    COMBINED,
    OUTPUT,
    NO_CLOBBER,
    VALUES,
    KIND_OF_ALL,
    TAGGED,
    BARE_OUTPUT,
    INDEX,
    SUMMARY,
    QUIET,
];

/// What a command has that makes a file of keys of the first of several tries.
const OF_FIRST: &[Argument] = &[
    COMBINED,
    OUTPUT,
    NO_CLOBBER,
    KIND_OF_ALL,
    TAGGED,
    BARE_OUTPUT,
    INDEX,
    SUMMARY,
    QUIET,
];

/// What a status says, in the help of the program.
pub const STATUSES: &str =
    "Status: 0 if all is done or found; 1 if a key is not there, no pair is\n\
    listed, a text begins with no key, pairs differ, or a build is refused;\n\
    2 if the command line is wrong, FILE is no trie, IN is no pairs, or keys\n\
    are no lines; 3 if a file can't be read or written, or memory runs out;\n\
    4 if whoever reads the output has closed it.";

/// The commands that build a trie and look up in it.
const LOOK_UPS: &[Subcommand] = &[
    Subcommand {
        name: "build",
        about: "Make a trie or an index from a file of pairs",
        help: "Example: zerotrie build names.tsv -o names.trie\n\
            In every format of text a byte order mark in front is left out,\n\
            and a carriage return before a line feed.\n\
            Status: 1 if the build is refused, 2 if IN is no pairs.",
        arguments: &[
            Argument {
                name: "IN",
                form: Form::Place,
                help: "A file of pairs, or - for standard input",
            },
            OUTPUT,
            NO_CLOBBER,
            Argument {
                name: "format",
                form: Form::OneOf("F", Some('f'), INPUTS, Otherwise::Nothing),
                help: "The format of IN, else by its ending, else tsv",
            },
            Argument {
                name: "raw",
                form: Form::Flag(Some('r')),
                help: "Read tsv without escapes",
            },
            Argument {
                name: "header",
                form: Form::Flag(None),
                help: "Leave out the first line or record of tsv or csv, which is a header",
            },
            Argument {
                name: "key",
                form: Form::Text("NAME", None, Otherwise::Nothing),
                help: "The column of keys by its name in the header; of jsonl the member, else key",
            },
            Argument {
                name: "value",
                form: Form::Text("NAME", None, Otherwise::Nothing),
                help: "The column of values by its name in the header; of jsonl the member, else value",
            },
            Argument {
                name: "eol",
                form: Form::OneOf("E", None, ENDS, Otherwise::Nothing),
                help: "What ends a line, else crlf: lf keeps carriage returns",
            },
            Argument {
                name: "duplicates",
                form: Form::OneOf("D", Some('d'), CHOICES, Otherwise::Is("refuse")),
                help: "An error, or the value of a key that comes again",
            },
            Argument {
                name: "lower-case",
                form: Form::Flag(Some('l')),
                help: "Bring ASCII letters of keys into lower case first",
            },
            Argument {
                name: "sorted",
                form: Form::Flag(Some('S')),
                help: "Refuse keys that do not ascend by their bytes, as after LC_ALL=C sort",
            },
            KIND,
            TAGGED,
            BARE_OUTPUT,
            INDEX,
            SUMMARY,
            QUIET,
        ],
    },
    Subcommand {
        name: "get",
        about: "Print the values of keys",
        help: "Example: zerotrie get names.trie amp lt\n\
            Status: 1 if a key is not there, 2 if FILE is no trie or index.",
        arguments: &[
            ANY_FILE,
            Argument {
                name: "KEY",
                form: Form::Words,
                help: "Keys; - alone reads them from standard input, one a line",
            },
            Argument {
                name: "keys",
                form: Form::Flag(Some('k')),
                help: "Print each key in front of its value",
            },
            ESCAPED,
            BARE_KIND,
            NO_CHECK,
        ],
    },
    Subcommand {
        name: "longest",
        about: "Print the longest key that each text begins with, and its value",
        help: "Example: zerotrie longest names.trie ampersand\n\
            Status: 1 if a text begins with no key, 2 if FILE is no trie.",
        arguments: &[
            FILE,
            Argument {
                name: "TEXT",
                form: Form::Words,
                help: "Texts; - alone reads them from standard input, one a line",
            },
            Argument {
                name: "all",
                form: Form::Flag(Some('a')),
                help: "Print all keys that a text begins with, shortest first",
            },
            Argument {
                name: "at",
                form: Form::Text("BYTE", None, Otherwise::Nothing),
                help: "Take only keys that end with the text or before this byte",
            },
            ESCAPED,
            BARE_KIND,
            NO_CHECK,
        ],
    },
    Subcommand {
        name: "reverse",
        about: "Print the first key of each value, in the order of list",
        help: "Example: zerotrie reverse names.trie 38\n\
            Status: 1 if no key has a value, 2 if FILE is no trie.",
        arguments: &[
            FILE,
            Argument {
                name: "VALUE",
                form: Form::Words,
                help: "Values; - alone reads them from standard input, one a line",
            },
            BARE_KIND,
            NO_CHECK,
        ],
    },
];

/// The commands that list pairs.
const LISTINGS: &[Subcommand] = &[
    Subcommand {
        name: "list",
        about: "Print the pairs",
        help: "Example: zerotrie list names.trie --prefix am\n\
            The order is that of the trie, but with --from, --below and --to that of bytes.\n\
            Status: 1 if no key is listed, 2 if FILE is no trie.",
        arguments: &[
            FILE, PREFIX, FROM, BELOW, TO, FORMAT, RAW, TOP, LIMIT, COUNT, SORTED, ONLY_ASK,
            BARE_KIND, NO_CHECK,
        ],
    },
    Subcommand {
        name: "search",
        about: "Print the pairs whose keys match a pattern or are near a word",
        help: "Example: zerotrie search names.trie --fuzzy ampersend\n\
            Example: zerotrie search names.trie --fuzzy amp --edits 2 --limit 5 --distance\n\
            Example: zerotrie search names.trie --glob '{l,g}t*' --not '*;'\n\
            Example: zerotrie search names.trie --prefix su --subsequence sq\n\
            All conditions hold: one of --glob, --fuzzy and --subsequence beside --not,\n\
            --prefix, --from, --below and --to, or these alone. Keys are in the order of their\n\
            bytes, but with --edits the nearest come first; without it those of the\n\
            fewest edits that find any, up to 2, are printed. In kind ignore a letter is\n\
            found in either case.\n\
            Status: 1 if no key is found, 2 if FILE is no trie.",
        arguments: &[
            FILE,
            Argument {
                name: "glob",
                form: Form::Text("P", Some('g'), Otherwise::Nothing),
                help: "Keys that match as a whole; * is any characters, ? one, [a-z] or [!a-z] one of a class, {a,b} either, and \\ takes the next as it is",
            },
            Argument {
                name: "fuzzy",
                form: Form::Text("WORD", Some('z'), Otherwise::Nothing),
                help: "Keys that few edits make of this word, of at most 63 characters",
            },
            Argument {
                name: "edits",
                form: Form::Number("E", Some('e'), 254),
                help: "How many characters --fuzzy may insert, delete, change or swap with the next; at most 7, with --no-transpose 254",
            },
            Argument {
                name: "no-transpose",
                form: Form::Flag(None),
                help: "Count two characters that change places as two edits",
            },
            Argument {
                name: "bytes",
                form: Form::Flag(None),
                help: "Let --glob, --not and --fuzzy count bytes in place of characters",
            },
            Argument {
                name: "beginnings",
                form: Form::Flag(None),
                help: "Find keys that begin with what --fuzzy looks for",
            },
            Argument {
                name: "distance",
                form: Form::Flag(None),
                help: "Print how many edits each key, or its beginning, is from WORD",
            },
            Argument {
                name: "subsequence",
                form: Form::Text("S", None, Otherwise::Nothing),
                help: "Keys that have these bytes in this order, with any others between",
            },
            Argument {
                name: "not",
                form: Form::Text("P", None, Otherwise::Nothing),
                help: "Keys that do not match this pattern, as of --glob",
            },
            PREFIX,
            FROM,
            BELOW,
            TO,
            FORMAT,
            RAW,
            TOP,
            LIMIT,
            COUNT,
            ONLY_ASK,
            BARE_KIND,
            NO_CHECK,
        ],
    },
    Subcommand {
        name: "diff",
        about: "Print the pairs that were added, removed and changed",
        help: "Example: zerotrie diff old.trie new.trie\n\
            Prints +, key and value of an added pair; -, key and value of a removed\n\
            one; and ~, key, old and new value. Tabs are between.\n\
            Status: 0 if the pairs are the same, 1 if not, 2 if a file is no trie.",
        arguments: &[
            Argument {
                name: "OLD",
                form: Form::Place,
                help: "A trie, or - for standard input",
            },
            Argument {
                name: "NEW",
                form: Form::Place,
                help: "Another one, of any kind",
            },
            Argument {
                name: "bare-kind",
                form: Form::OneOf("K", None, KINDS, Otherwise::Nothing),
                help: "Read both as bare bytes of this kind",
            },
            Argument {
                name: "quiet",
                form: Form::Flag(Some('q')),
                help: "Print nothing: the status alone says whether the pairs are the same",
            },
        ],
    },
];

/// The commands that show what a file has.
const REPORTS: &[Subcommand] = &[
    Subcommand {
        name: "verify",
        about: "Test all bytes, and print nothing if they are a trie or an index",
        help: "Example: zerotrie verify *.trie\nStatus: 2 if a FILE is no trie or index.",
        arguments: &[ALL_FILES, BARE_KIND],
    },
    Subcommand {
        name: "stats",
        about: "Print what the trie is made of",
        help: "Example: zerotrie stats names.trie --format json\n\
            Its bytes are those of the trie, without what a file has in front.\n\
            Status: 2 if a FILE is no trie.",
        arguments: &[
            FILES,
            Argument {
                name: "format",
                form: Form::OneOf("F", Some('f'), REPORT_FORMS, Otherwise::Nothing),
                help: "The format of the output, else text",
            },
            BARE_KIND,
            NO_CHECK,
        ],
    },
    Subcommand {
        name: "inspect",
        about: "Print each node of the trie, or a drawing for Graphviz",
        help: "Example: zerotrie inspect dot names.trie -n 40 | dot -Tsvg",
        arguments: &[
            Argument {
                name: "VIEW",
                form: Form::Word(VIEWS),
                help: "A line for each node, or a drawing",
            },
            FILE,
            Argument {
                name: "limit",
                form: Form::Number("N", Some('n'), GREATEST),
                help: "At most this many nodes of a drawing, else 100",
            },
            BARE_KIND,
            NO_CHECK,
        ],
    },
    Subcommand {
        name: "code",
        about: "Print the bytes as a constant of a program, with the call that reads it",
        help: "Example: zerotrie code names.trie --lang c --name names",
        arguments: &[
            FILE,
            Argument {
                name: "lang",
                form: Form::OneOf("L", None, LANGUAGES, Otherwise::Refused),
                help: "The language",
            },
            Argument {
                name: "name",
                form: Form::Text("NAME", None, Otherwise::Nothing),
                help: "The name of what is made, else TRIE in rust, get in rattle, and trie",
            },
            Argument {
                name: "alone",
                form: Form::Flag(None),
                help: "Print a reader in front, so that the code of C needs no library",
            },
            BARE_KIND,
            NO_CHECK,
        ],
    },
];

/// The commands that make a trie of others.
const COMBINATIONS: &[Subcommand] = &[
    Subcommand {
        name: "union",
        about: "Make a trie of the pairs of all FILEs",
        help: "Example: zerotrie union new.trie old.trie more.trie -o all.trie\n\
            A key that several FILEs have gets the value that --values takes of theirs,\n\
            in the order of the FILEs. OUT may be one of these. If all are of kind\n\
            ignore, a key is the same in any case, and stays as the first FILE has it.\n\
            Status: 1 if the build is refused, 2 if a FILE is no trie.",
        arguments: OF_ANY,
    },
    Subcommand {
        name: "intersect",
        about: "Make a trie of the keys that each FILE has",
        help: "Example: zerotrie intersect names.trie known.trie wanted.trie -o found.trie\n\
            Values, OUT and kind ignore are as in union.\n\
            Status: 1 if the build is refused, 2 if a FILE is no trie.",
        arguments: OF_ANY,
    },
    Subcommand {
        name: "minus",
        about: "Make a trie of the pairs of the first FILE whose keys no other has",
        help: "Example: zerotrie minus names.trie old.trie gone.trie -o new.trie\n\
            OUT may be one of the FILEs.\n\
            Status: 1 if the build is refused, 2 if a FILE is no trie.",
        arguments: OF_FIRST,
    },
];

/// The commands about the program itself.
const SERVICES: &[Subcommand] = &[
    Subcommand {
        name: "completions",
        about: "Print the completions of the command line for a shell",
        help: "Example: zerotrie completions bash",
        arguments: &[Argument {
            name: "SHELL",
            form: Form::Word(SHELLS),
            help: "The shell",
        }],
    },
    Subcommand {
        name: "man",
        about: "Print the man page",
        help: "Example: zerotrie man | man -l -",
        arguments: &[],
    },
];

fn look_ups() -> &'static [Subcommand] {
    LOOK_UPS
}

fn listings() -> &'static [Subcommand] {
    LISTINGS
}

fn reports() -> &'static [Subcommand] {
    REPORTS
}

fn combinations() -> &'static [Subcommand] {
    COMBINATIONS
}

fn services() -> &'static [Subcommand] {
    SERVICES
}

/// What the program can be asked to do, in the order of the help. Each part is behind a function of
/// its own, since a proof writes out the rows that it sees.
pub fn commands() -> [&'static [Subcommand]; 5] {
    [
        look_ups(),
        listings(),
        reports(),
        combinations(),
        services(),
    ]
}
