//! The sets of keys that are measured: made ones, the same in every run, and those of files.

use std::collections::{BTreeMap, BTreeSet};
use std::path::Path;

/// A set of keys in the order of their bytes, each with a value.
pub struct Set {
    pub name: String,
    pub keys: Vec<Vec<u8>>,
    pub values: Vec<usize>,
}

impl Set {
    /// The keys, each with its number in the order of bytes as its value.
    pub fn numbered(name: &str, keys: Vec<Vec<u8>>) -> Set {
        let values = (0..keys.len()).collect();
        Set { name: String::from(name), keys, values }
    }

    /// The lines of a file, each with its number from 1 on as its value. A line that came before is left out.
    pub fn of_file(path: &Path) -> std::io::Result<Set> {
        let text = std::fs::read(path)?;
        let text = text.strip_suffix(b"\n").unwrap_or(&text);
        let mut pairs = BTreeMap::new();
        for (line, key) in text.split(|byte| *byte == b'\n').enumerate() {
            pairs.entry(key.to_vec()).or_insert(line + 1);
        }
        let name = path.file_stem().unwrap_or_default().to_string_lossy();
        let (keys, values): (Vec<_>, Vec<_>) = pairs.into_iter().unzip();
        Ok(Set { name: format!("{} {name}", grouped(keys.len())), keys, values })
    }

    pub fn pairs(&self) -> impl Iterator<Item = (&[u8], usize)> {
        self.keys.iter().map(Vec::as_slice).zip(self.values.iter().copied())
    }
}

/// Texts one after another, and where each ends.
pub struct Flat {
    pub keys: Vec<u8>,
    pub ends: Vec<usize>,
}

impl Flat {
    pub fn of<T: AsRef<[u8]>>(texts: impl IntoIterator<Item = T>) -> Flat {
        let mut flat = Flat { keys: Vec::new(), ends: Vec::new() };
        for text in texts {
            flat.keys.extend_from_slice(text.as_ref());
            flat.ends.push(flat.keys.len());
        }
        flat
    }

    pub fn slices(&self) -> Vec<&[u8]> {
        let starts = std::iter::once(0).chain(self.ends.iter().copied());
        starts.zip(&self.ends).map(|(start, end)| &self.keys[start..*end]).collect()
    }
}

/// A number with a comma between thousands.
pub fn grouped(number: usize) -> String {
    let digits = number.to_string();
    let mut text = String::new();
    for (place, digit) in digits.chars().enumerate() {
        if place > 0 && (digits.len() - place).is_multiple_of(3) {
            text.push(',');
        }
        text.push(digit);
    }
    text
}

/// Numbers that look random and are the same in every run.
pub struct Random(u64);

impl Random {
    pub fn new(seed: u64) -> Self {
        Random(seed)
    }

    fn next(&mut self) -> u64 {
        self.0 ^= self.0 << 13;
        self.0 ^= self.0 >> 7;
        self.0 ^= self.0 << 17;
        self.0
    }

    pub fn below(&mut self, limit: usize) -> usize {
        ((self.next() >> 11) % limit as u64) as usize
    }

    fn pick<'a>(&mut self, words: &[&'a str]) -> &'a str {
        words[self.below(words.len())]
    }

    pub fn shuffle<T>(&mut self, items: &mut [T]) {
        for last in (1..items.len()).rev() {
            items.swap(last, self.below(last + 1));
        }
    }
}

/// So many distinct keys, as they come from `next`.
fn collected(count: usize, mut next: impl FnMut() -> String) -> Vec<Vec<u8>> {
    let mut keys = BTreeSet::new();
    while keys.len() < count {
        keys.insert(next().into_bytes());
    }
    keys.into_iter().collect()
}

const LANGUAGES: &[&str] = &[
    "af", "am", "ar", "as", "az", "be", "bg", "bn", "bs", "ca", "cs", "cy", "da", "de", "el", "en", "es", "et", "eu", "fa", "ff", "fi",
    "fil", "fr", "ga", "gl", "gu", "ha", "he", "hi", "hr", "hu", "hy", "id", "ig", "is", "it", "ja", "ka", "kk", "km", "kn", "ko", "kok",
    "ky", "lo", "lt", "lv", "mk", "ml", "mn", "mr", "ms", "my", "nb", "ne", "nl", "or", "pa", "pl", "ps", "pt", "ro", "ru", "sd", "si",
    "sk", "sl", "so", "sq", "sr", "sv", "sw", "ta", "te", "th", "tk", "tr", "uk", "ur", "uz", "vi", "yo", "yrl", "yue", "zh", "zu",
];

const SCRIPTS: &[&str] = &["Arab", "Cyrl", "Deva", "Guru", "Hans", "Hant", "Latn", "Adlm"];

const REGIONS: &[&str] = &[
    "AE", "AR", "AT", "AU", "BA", "BE", "BR", "CA", "CH", "CN", "DE", "DZ", "EG", "ES", "FR", "GB", "GH", "HK", "IE", "IN", "IQ", "IR",
    "IT", "JP", "KE", "KR", "LU", "MA", "MO", "MX", "NG", "NL", "PK", "PT", "RS", "RU", "SA", "SD", "SE", "SG", "TN", "TR", "TW", "UA",
    "US", "UZ", "VE", "ZA", "001", "150", "419",
];

fn tags() -> Vec<Vec<u8>> {
    let mut random = Random::new(11);
    collected(500, || {
        let language = random.pick(LANGUAGES);
        match random.below(8) {
            0 => language.to_string(),
            1 => format!("{language}-{}", random.pick(SCRIPTS)),
            2 => format!("{language}-{}-{}", random.pick(SCRIPTS), random.pick(REGIONS)),
            _ => format!("{language}-{}", random.pick(REGIONS)),
        }
    })
}

#[rustfmt::skip]
const HEADERS: &[&str] = &[
    "accept", "accept-charset", "accept-encoding", "accept-language", "accept-ranges",
    "access-control-allow-credentials", "access-control-allow-headers",
    "access-control-allow-methods", "access-control-allow-origin",
    "access-control-expose-headers", "access-control-max-age", "access-control-request-headers",
    "access-control-request-method", "age", "allow", "alt-svc", "authorization", "cache-control",
    "connection", "content-disposition", "content-encoding", "content-language",
    "content-length", "content-location", "content-range", "content-security-policy",
    "content-security-policy-report-only", "content-type", "cookie", "date", "dnt", "etag",
    "expect", "expires", "forwarded", "from", "host", "if-match", "if-modified-since",
    "if-none-match", "if-range", "if-unmodified-since", "keep-alive", "last-modified", "link",
    "location", "max-forwards", "origin", "pragma", "proxy-authenticate",
    "proxy-authorization", "public-key-pins", "range", "referer", "referrer-policy", "refresh",
    "retry-after", "sec-fetch-dest", "sec-fetch-mode", "sec-fetch-site",
    "sec-websocket-accept", "sec-websocket-extensions", "sec-websocket-key",
    "sec-websocket-protocol", "sec-websocket-version", "server", "set-cookie",
    "strict-transport-security", "te", "trailer", "transfer-encoding", "upgrade",
    "upgrade-insecure-requests", "user-agent", "vary", "via", "warning", "www-authenticate",
    "x-content-type-options", "x-forwarded-for", "x-frame-options", "x-request-id",
    "x-xss-protection",
];

const ONSETS: &[&str] = &[
    "b", "bl", "c", "ch", "d", "dr", "f", "fl", "g", "gr", "h", "j", "k", "l", "m", "n", "p", "pl", "pr", "qu", "r", "s", "sh", "st",
    "str", "t", "th", "tr", "v", "w", "y", "",
];
const VOWELS: &[&str] = &["a", "e", "i", "o", "u", "ai", "ea", "ee", "io", "ou"];
const CODAS: &[&str] = &["", "", "b", "ck", "d", "l", "ll", "m", "n", "nd", "ng", "nt", "r", "s", "st", "t"];
const ENDINGS: &[&str] = &["", "", "", "ed", "er", "ing", "ion", "ly", "ness", "s"];

/// So many words, the same for the same seed.
pub fn words(seed: u64, count: usize) -> Vec<Vec<u8>> {
    let mut random = Random::new(seed);
    collected(count, || {
        let mut word = String::new();
        for _ in 0..1 + random.below(3) {
            word += random.pick(ONSETS);
            word += random.pick(VOWELS);
            word += random.pick(CODAS);
        }
        word + random.pick(ENDINGS)
    })
}

const SYLLABLES: &[&str] = &[
    "ба", "во", "ге", "ди", "жу", "за", "ки", "ло", "ми", "но", "пра", "ро", "сте", "ты", "фу", "че", "ές", "λό", "γος", "μα", "να", "πο",
    "ρι", "τα", "år", "bø", "né", "ü", "ße", "ço", "ña", "über",
];

fn beyond_ascii(count: usize) -> Vec<Vec<u8>> {
    let mut random = Random::new(23);
    collected(count, || (0..2 + random.below(4)).map(|_| random.pick(SYLLABLES)).collect())
}

fn paths() -> Vec<Vec<u8>> {
    let mut random = Random::new(31);
    let folders = words(37, 300);
    collected(1000, || {
        let mut path = String::from("/usr/share/applications/configuration/");
        for _ in 0..3 + random.below(4) {
            path += std::str::from_utf8(&folders[random.below(folders.len())]).unwrap();
            path += if random.below(3) == 0 { "-resources/" } else { "/" };
        }
        path + ["index.html", "settings.json", "main.css", "readme.txt"][random.below(4)]
    })
}

/// Sets of a million keys: integers, ids of 32 hex digits, and URLs.
pub fn large() -> Vec<Set> {
    const COUNT: usize = 1_000_000;
    let (mut integers, mut random) = (0..COUNT, Random::new(79));
    let ids = collected(COUNT, || format!("{:016x}{:016x}", random.next(), random.next()));
    let url = || {
        let (site, year, number) = (random.below(1_000), 2000 + random.below(25), random.below(1_000_000_000));
        format!("https://www.example{site}.com/articles/{year}/page-{number}.html")
    };
    vec![
        Set::numbered("1,000,000 integers", collected(COUNT, || integers.next().unwrap_or_default().to_string())),
        Set::numbered("1,000,000 hex ids", ids),
        Set::numbered("1,000,000 URLs", collected(COUNT, url)),
    ]
}

/// Ids of 16 random bytes.
fn random_ids(count: usize) -> Vec<Vec<u8>> {
    let mut random = Random::new(83);
    (0..count).map(|_| (0..16).map(|_| random.below(256) as u8).collect()).collect::<BTreeSet<_>>().into_iter().collect()
}

/// The made sets. Those of other bytes than ASCII are for the hashed kinds alone.
fn made() -> Vec<Set> {
    let headers = HEADERS.iter().map(|name| name.as_bytes().to_vec()).collect();
    vec![
        Set::numbered("83 header names", headers),
        Set::numbered("500 locale tags", tags()),
        Set::numbered("5,000 words", words(17, 5_000)),
        Set::numbered("200,000 words", words(19, 200_000)),
        Set::numbered("1,000 long paths", paths()),
        Set::numbered("2,000 UTF-8 words", beyond_ascii(2_000)),
        Set::numbered("10,000 random ids", random_ids(10_000)),
        Set::numbered("100,000 integers", (100_000..200_000).map(|number| number.to_string().into_bytes()).collect()),
    ]
}

/// The sets that benches/data wrote, if it did.
fn written() -> Vec<Set> {
    let Ok(folder) = std::fs::read_dir(std::env::temp_dir().join("zerotrie-sets")) else { return Vec::new() };
    let mut files: Vec<_> =
        folder.flatten().map(|file| file.path()).filter(|path| path.extension().is_some_and(|end| end == "txt")).collect();
    files.sort();
    files.iter().filter_map(|path| Set::of_file(path).ok()).collect()
}

/// The made sets and those that benches/data wrote.
pub fn all() -> Vec<Set> {
    made().into_iter().chain(written()).collect()
}

/// A set of values, each of a prefix and a suffix, in the order of both.
pub struct Table {
    pub name: &'static str,
    pub entries: Vec<(String, String, usize)>,
}

const OTHER_REGIONS: &[&str] = &["AO", "BD", "BG", "BO", "CL", "CO", "CZ", "DK", "FI"];

/// Values of locales: three rows in four have most regions, with values in a range of 500 but for some, and the others
/// have a few regions with values from anywhere.
fn locales() -> Vec<(String, String, usize)> {
    let mut random = Random::new(59);
    let scripts = SCRIPTS.iter().flat_map(|script| LANGUAGES.iter().map(move |language| format!("{language}-{script}")));
    let prefixes: Vec<String> = LANGUAGES.iter().map(|language| language.to_string()).chain(scripts).take(200).collect();
    let mut entries = BTreeMap::new();
    for prefix in &prefixes {
        let is_full = random.below(4) > 0;
        let base = random.below(100_000);
        for region in REGIONS.iter().chain(OTHER_REGIONS) {
            if random.below(60) < if is_full { 45 } else { 3 } {
                let is_near = is_full && random.below(40) > 0;
                let value = if is_near { base + random.below(500) } else { random.below(10_000_000) };
                entries.insert((prefix.clone(), region.to_string()), value);
            }
        }
    }
    entries.into_iter().map(|((prefix, suffix), value)| (prefix, suffix, value)).collect()
}

/// This many full rows of this many suffixes, each row with its values in a range of 1,000.
fn full_rows(prefixes: usize, suffixes: usize) -> Vec<(String, String, usize)> {
    let mut random = Random::new(61);
    let text = |word: Vec<u8>| String::from_utf8(word).unwrap();
    let suffixes: Vec<String> = words(67, suffixes).into_iter().map(text).collect();
    let mut entries = Vec::new();
    for prefix in words(71, prefixes).into_iter().map(text) {
        let base = random.below(100_000);
        entries.extend(suffixes.iter().map(|suffix| (prefix.clone(), suffix.clone(), base + random.below(1_000))));
    }
    entries
}

/// The tables of prefixes and suffixes.
pub fn tables() -> Vec<Table> {
    vec![
        Table { name: "200 locales by 60 regions", entries: locales() },
        Table { name: "1,000 rows by 100 suffixes", entries: full_rows(1_000, 100) },
    ]
}

/// As many prefixes and suffixes without a value as the table has values: both of them texts of the table, or one with a changed byte.
pub fn absent(table: &Table) -> Vec<(String, String)> {
    let mut random = Random::new(73);
    let held: BTreeSet<(&str, &str)> = table.entries.iter().map(|(prefix, suffix, _)| (prefix.as_str(), suffix.as_str())).collect();
    let mut missing = Vec::new();
    while missing.len() < table.entries.len() {
        let prefix = &table.entries[random.below(table.entries.len())].0;
        let suffix = &table.entries[random.below(table.entries.len())].1;
        let mut texts = [prefix.clone().into_bytes(), suffix.clone().into_bytes()];
        if let Some(changed) = texts.get_mut(random.below(3)) {
            let place = random.below(changed.len());
            changed[place] = b'a' + random.below(26) as u8;
        }
        let [prefix, suffix] = texts.map(|text| String::from_utf8(text).unwrap());
        if !held.contains(&(prefix.as_str(), suffix.as_str())) {
            missing.push((prefix, suffix));
        }
    }
    missing
}

/// As many keys that are not in the set: each is a key of it with one byte changed, and, should that be a key, more bytes after it.
pub fn misses(set: &Set) -> Vec<Vec<u8>> {
    let mut random = Random::new(41);
    let held: BTreeSet<&[u8]> = set.keys.iter().map(Vec::as_slice).collect();
    let missing = |_| {
        let mut key = set.keys[random.below(set.keys.len())].clone();
        if !key.is_empty() {
            let place = random.below(key.len());
            key[place] = b'a' + random.below(26) as u8;
        }
        while held.contains(key.as_slice()) {
            key.push(b'a' + random.below(26) as u8);
        }
        key
    };
    set.keys.iter().map(missing).collect()
}
