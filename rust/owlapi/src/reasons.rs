//! Why we refuse a run that the OWL API takes.
//!
//! The reason is told from the place of our refusal: the token there, and the
//! keyword whose bracket it stands in.

/// The most bytes of a run, and of a name.
const MOST_BYTES: usize = 16_384;
const MOST_IN_NAME: usize = 12;

/// The keywords of a run.
const KEYWORDS: [&str; 4] = [
    "SubClassOf",
    "Annotation",
    "ObjectIntersectionOf",
    "ObjectSomeValuesFrom",
];

/// A token of a run, as the OWL API parts them.
pub struct Token<'a> {
    pub text: &'a str,
    start: usize,
}

impl Token<'_> {
    pub fn end(&self) -> usize {
        self.start + self.text.len()
    }
}

/// The reason for a refusal at this place, if it is a known one.
pub fn reason(run: &str, place: usize) -> Option<&'static str> {
    if run.len() > MOST_BYTES {
        return (place == MOST_BYTES).then_some("a run over 16,384 bytes");
    }
    let tokens = tokens(run);
    let mut all = tokens.iter();
    let is_in_token = all.any(|token| token.start <= place && place < token.end());
    match run.as_bytes().get(place)? {
        b'\t' | b'\r' if !is_in_token => Some("a tab or a carriage return between tokens"),
        b'#' if !is_in_token => Some("a comment"),
        _ => of_tokens(&tokens, place),
    }
}

/// The reason in the token at this place, or in the one that ends there: a name may
/// be refused for its end.
fn of_tokens(tokens: &[Token], place: usize) -> Option<&'static str> {
    let near = |index: &usize| tokens[*index].start <= place && place <= tokens[*index].end();
    let mut near = (0..tokens.len()).rev().filter(near);
    near.find_map(|index| of_token(&tokens[index], place, &tokens[..index]))
}

/// The reason for a refusal in a token, or at its end, behind those before it. What
/// a run has is no reason where it may stand.
fn of_token(token: &Token, place: usize, before: &[Token]) -> Option<&'static str> {
    let text = token.text;
    match keyword_around(before) {
        None if text == "Annotation" => Some("an annotation of the ontology"),
        None => is_other_keyword(text).then_some("an axiom of another kind"),
        Some("Annotation") => in_annotation(text, before.last()?.text),
        Some(around) => in_axiom(text, place - token.start, around, before.last()?.text),
    }
}

/// What else stands in an axiom, or in a class, behind the token before it.
fn in_axiom(text: &str, offset: usize, around: &str, before: &str) -> Option<&'static str> {
    let is_role = around == "ObjectSomeValuesFrom" && before == "(";
    match text {
        "Annotation" => (before == ")").then_some("a second annotation"),
        "owl:Thing" | "owl:Nothing" => is_role.then_some("one of OWL's classes as a role"),
        _ if text.starts_with('<') => Some("a full IRI"),
        _ if text.starts_with(':') => in_name(text.as_bytes(), offset),
        _ if text.starts_with("_:") => None,
        _ if text.contains(':') => Some("a name of another prefix"),
        _ => is_other_keyword(text).then_some("another kind of class or role"),
    }
}

/// What else an annotation says than the comment "usual".
fn in_annotation(text: &str, before: &str) -> Option<&'static str> {
    let is_name = text.starts_with('<') || text.contains(':');
    match text {
        "rdfs:comment" | "\"usual\"" => None,
        "Annotation" => Some("an annotation of an annotation"),
        "^^" => Some("a text with its type"),
        _ if text.starts_with('@') => Some("a text with a language"),
        _ if text.starts_with('"') => Some("another text in the annotation"),
        _ if !is_name => None,
        _ if matches!(before, "(" | ")") => Some("another property in the annotation"),
        _ => Some("a name in place of the annotation's text"),
    }
}

/// What makes a name no word, at the byte where it stops being one.
fn in_name(name: &[u8], offset: usize) -> Option<&'static str> {
    match name.get(offset)? {
        _ if offset == 0 => None,
        b'A'..=b'Z' => Some("a capital in a name"),
        b'a'..=b'z' | b'0'..=b'9' => (offset > MOST_IN_NAME).then_some("a name over 12 bytes"),
        _ => Some("another byte in a name"),
    }
}

/// Whether a token is a word without a colon, and none that a run has.
fn is_other_keyword(text: &str) -> bool {
    let is_word = text.bytes().all(|byte| byte.is_ascii_alphabetic());
    is_word && !KEYWORDS.contains(&text)
}

/// The word before the innermost bracket that is still open behind these tokens.
fn keyword_around<'a>(before: &[Token<'a>]) -> Option<&'a str> {
    let mut open = Vec::new();
    for (index, token) in before.iter().enumerate() {
        match token.text {
            "(" => open.push(index.checked_sub(1).map_or("", |word| before[word].text)),
            ")" => {
                open.pop();
            }
            _ => {}
        }
    }
    open.last().copied()
}

/// The tokens of a run.
pub fn tokens(run: &str) -> Vec<Token<'_>> {
    let mut tokens = Vec::new();
    let mut start = 0;
    while let Some(first) = run[start..].chars().next() {
        let rest = &run[start..];
        let length = match first {
            '#' => rest.find('\n').unwrap_or(rest.len()),
            _ if is_white(first) => 1,
            _ => {
                let text = &rest[..token_length(rest, first)];
                tokens.push(Token { text, start });
                text.len()
            }
        };
        start += length;
    }
    tokens
}

fn is_white(character: char) -> bool {
    matches!(character, ' ' | '\n' | '\t' | '\r')
}

/// The length of the token that a text begins with.
fn token_length(rest: &str, first: char) -> usize {
    let ends = |it: char| is_white(it) || "()=\"<>^@".contains(it);
    let second = first.len_utf8();
    match first {
        '(' | ')' | '=' | '>' => second,
        '^' => rest.len() - rest.trim_start_matches('^').len(),
        '"' => text_length(rest),
        '<' => rest.find('>').map_or(rest.len(), |end| end + 1),
        _ => rest[second..]
            .find(ends)
            .map_or(rest.len(), |at| at + second),
    }
}

fn text_length(rest: &str) -> usize {
    let mut escaped = false;
    for (place, byte) in rest.bytes().enumerate().skip(1) {
        match byte {
            b'"' if !escaped => return place + 1,
            b'\\' => escaped = !escaped,
            _ => escaped = false,
        }
    }
    rest.len()
}
