//! The tokens of a text, and its protocols, functions and queries as they are written.

use crate::refusal::Refusal;

/// A word or a mark, and its offset in the text.
#[derive(Clone, Copy, Debug)]
pub struct Token<'a> {
    pub text: &'a str,
    pub at: usize,
}

#[derive(Debug)]
pub enum StepText<'a> {
    Name(Token<'a>),
    Bound(Token<'a>, Token<'a>),
}

#[derive(Debug)]
pub struct TypeText<'a> {
    pub head: Token<'a>,
    pub steps: Vec<StepText<'a>>,
}

/// A protocol with its arguments, or `AnyObject`.
#[derive(Debug)]
pub struct BoundText<'a> {
    pub entity: Token<'a>,
    pub arguments: Vec<TypeText<'a>>,
}

impl BoundText<'_> {
    pub fn is_layout(&self) -> bool {
        self.entity.text == "AnyObject"
    }
}

#[derive(Debug)]
pub enum RequirementText<'a> {
    Is(TypeText<'a>, Vec<BoundText<'a>>),
    Same(TypeText<'a>, TypeText<'a>),
}

#[derive(Debug)]
pub struct AssociatedText<'a> {
    pub name: Token<'a>,
    pub bounds: Vec<BoundText<'a>>,
    pub clause: Vec<RequirementText<'a>>,
}

#[derive(Debug)]
pub struct ProtocolText<'a> {
    pub name: Token<'a>,
    pub primaries: Vec<Token<'a>>,
    pub bounds: Vec<BoundText<'a>>,
    pub clause: Vec<RequirementText<'a>>,
    pub associated: Vec<AssociatedText<'a>>,
}

#[derive(Debug)]
pub struct FunctionText<'a> {
    pub name: Token<'a>,
    pub params: Vec<(Token<'a>, Vec<BoundText<'a>>)>,
    pub clause: Vec<RequirementText<'a>>,
}

#[derive(Debug)]
pub enum AskText<'a> {
    Signature,
    Reduced(TypeText<'a>),
    Is(TypeText<'a>, Token<'a>),
    Same(TypeText<'a>, TypeText<'a>),
}

#[derive(Debug)]
pub struct QueryText<'a> {
    pub function: Token<'a>,
    pub ask: AskText<'a>,
}

/// What a text has, each kind in written order.
#[derive(Default)]
pub struct Source<'a> {
    pub protocols: Vec<ProtocolText<'a>>,
    pub functions: Vec<FunctionText<'a>>,
    pub queries: Vec<QueryText<'a>>,
}

const RESERVED: [&str; 34] = [
    "protocol",
    "associatedtype",
    "func",
    "where",
    "Self",
    "AnyObject",
    "public",
    "internal",
    "fileprivate",
    "private",
    "class",
    "struct",
    "enum",
    "actor",
    "extension",
    "typealias",
    "import",
    "var",
    "let",
    "init",
    "subscript",
    "static",
    "mutating",
    "some",
    "any",
    "Any",
    "each",
    "repeat",
    "Type",
    "Protocol",
    "async",
    "throws",
    "rethrows",
    "_",
];

fn continues_word(c: char) -> bool {
    c.is_alphanumeric() || c == '_'
}

/// How long the comment is with which a text begins, after its `/*`. Comments nest.
fn comment_length(text: &str) -> Option<usize> {
    let bytes = text.as_bytes();
    let mut depth = 0;
    let mut at = 0;
    while at + 1 < bytes.len() {
        match &bytes[at..at + 2] {
            b"*/" if depth == 0 => return Some(at + 2),
            b"*/" => (depth, at) = (depth - 1, at + 2),
            b"/*" => (depth, at) = (depth + 1, at + 2),
            _ => at += 1,
        }
    }
    None
}

/// How long the first token of a text is, or the white space or comment there, and whether it is a token.
fn front(text: &str) -> Option<(usize, bool)> {
    let first = text.chars().next()?;
    if let ' ' | '\t'..='\r' = first {
        return Some((1, false));
    }
    if first.is_alphabetic() || first == '_' {
        return Some((
            text.find(|c| !continues_word(c)).unwrap_or(text.len()),
            true,
        ));
    }
    if text.starts_with("//") {
        return Some((text.find(['\n', '\r']).unwrap_or(text.len()), false));
    }
    if let Some(rest) = text.strip_prefix("/*") {
        return comment_length(rest).map(|length| (length + 2, false));
    }
    if text.starts_with("==") {
        return Some((2, true));
    }
    "{}()<>,:;.&[]".contains(first).then_some((1, true))
}

fn tokens(text: &str) -> Result<Vec<Token<'_>>, Refusal> {
    let mut found = Vec::new();
    let mut at = if text.starts_with('\u{FEFF}') { 3 } else { 0 };
    while at < text.len() {
        let (length, is_token) = front(&text[at..]).ok_or(Refusal::NotRead { at })?;
        if is_token {
            found.push(Token {
                text: &text[at..at + length],
                at,
            });
        }
        at += length;
    }
    Ok(found)
}

struct Parser<'a> {
    tokens: Vec<Token<'a>>,
    next: usize,
    end: usize,
}

impl<'a> Parser<'a> {
    fn peek(&self) -> &'a str {
        self.tokens.get(self.next).map_or("", |token| token.text)
    }

    fn refusal(&self) -> Refusal {
        let at = self
            .tokens
            .get(self.next)
            .map_or(self.end, |token| token.at);
        Refusal::NotRead { at }
    }

    fn take(&mut self) -> Token<'a> {
        self.next += 1;
        self.tokens[self.next - 1]
    }

    /// Takes the token, if it comes next.
    fn has(&mut self, text: &str) -> bool {
        let here = self.peek() == text;
        self.next += usize::from(here);
        here
    }

    fn expect(&mut self, text: &str) -> Result<(), Refusal> {
        if self.has(text) {
            Ok(())
        } else {
            Err(self.refusal())
        }
    }

    fn name(&mut self) -> Result<Token<'a>, Refusal> {
        let text = self.peek();
        if text.starts_with(continues_word) && !RESERVED.contains(&text) {
            Ok(self.take())
        } else {
            Err(self.refusal())
        }
    }

    /// Parts with a mark between each two.
    fn list<T>(
        &mut self,
        between: &str,
        mut part: impl FnMut(&mut Self) -> Result<T, Refusal>,
    ) -> Result<Vec<T>, Refusal> {
        let mut parts = vec![part(self)?];
        while self.has(between) {
            parts.push(part(self)?);
        }
        Ok(parts)
    }

    /// Parts in angle brackets, or none.
    fn angled<T>(
        &mut self,
        part: impl FnMut(&mut Self) -> Result<T, Refusal>,
    ) -> Result<Vec<T>, Refusal> {
        if !self.has("<") {
            return Ok(Vec::new());
        }
        let parts = self.list(",", part)?;
        self.expect(">")?;
        Ok(parts)
    }

    fn type_text(&mut self) -> Result<TypeText<'a>, Refusal> {
        let head = if self.peek() == "Self" {
            self.take()
        } else {
            self.name()?
        };
        let mut steps = Vec::new();
        while self.has(".") {
            steps.push(StepText::Name(self.name()?));
        }
        Ok(TypeText { head, steps })
    }

    fn query_type(&mut self) -> Result<TypeText<'a>, Refusal> {
        let head = self.name()?;
        let mut steps = Vec::new();
        while self.has(".") {
            if self.has("[") {
                let proto = self.name()?;
                self.expect("]")?;
                steps.push(StepText::Bound(proto, self.name()?));
            } else {
                steps.push(StepText::Name(self.name()?));
            }
        }
        Ok(TypeText { head, steps })
    }

    fn entity(&mut self) -> Result<Token<'a>, Refusal> {
        if self.peek() == "AnyObject" {
            Ok(self.take())
        } else {
            self.name()
        }
    }

    fn bound(&mut self) -> Result<BoundText<'a>, Refusal> {
        let entity = self.entity()?;
        let arguments = match entity.text {
            "AnyObject" => Vec::new(),
            _ => self.angled(Self::type_text)?,
        };
        Ok(BoundText { entity, arguments })
    }

    fn bounds(&mut self) -> Result<Vec<BoundText<'a>>, Refusal> {
        self.list("&", Self::bound)
    }

    fn inherit(&mut self) -> Result<Vec<BoundText<'a>>, Refusal> {
        if !self.has(":") {
            return Ok(Vec::new());
        }
        let lists = self.list(",", Self::bounds)?;
        Ok(lists.into_iter().flatten().collect())
    }

    fn requirement(&mut self) -> Result<RequirementText<'a>, Refusal> {
        let subject = self.type_text()?;
        if self.has(":") {
            return Ok(RequirementText::Is(subject, self.bounds()?));
        }
        self.expect("==")?;
        Ok(RequirementText::Same(subject, self.type_text()?))
    }

    fn clause(&mut self) -> Result<Vec<RequirementText<'a>>, Refusal> {
        if self.has("where") {
            self.list(",", Self::requirement)
        } else {
            Ok(Vec::new())
        }
    }

    fn associated(&mut self) -> Result<AssociatedText<'a>, Refusal> {
        self.expect("associatedtype")?;
        let member = AssociatedText {
            name: self.name()?,
            bounds: self.inherit()?,
            clause: self.clause()?,
        };
        self.has(";");
        Ok(member)
    }

    fn protocol(&mut self) -> Result<ProtocolText<'a>, Refusal> {
        let mut protocol = ProtocolText {
            name: self.name()?,
            primaries: self.angled(Self::name)?,
            bounds: self.inherit()?,
            clause: self.clause()?,
            associated: Vec::new(),
        };
        self.expect("{")?;
        while !self.has("}") {
            protocol.associated.push(self.associated()?);
        }
        Ok(protocol)
    }

    fn param(&mut self) -> Result<(Token<'a>, Vec<BoundText<'a>>), Refusal> {
        let name = self.name()?;
        let bounds = if self.has(":") {
            self.bounds()?
        } else {
            Vec::new()
        };
        Ok((name, bounds))
    }

    fn function(&mut self) -> Result<FunctionText<'a>, Refusal> {
        let name = self.name()?;
        let params = self.angled(Self::param)?;
        self.expect("(")?;
        self.expect(")")?;
        let clause = self.clause()?;
        if self.has("{") {
            self.expect("}")?;
        }
        Ok(FunctionText {
            name,
            params,
            clause,
        })
    }

    fn ask(&mut self) -> Result<AskText<'a>, Refusal> {
        if self.peek() == ")" {
            return Ok(AskText::Signature);
        }
        let subject = self.query_type()?;
        if self.has(":") {
            return Ok(AskText::Is(subject, self.entity()?));
        }
        if self.has("==") {
            return Ok(AskText::Same(subject, self.query_type()?));
        }
        Ok(AskText::Reduced(subject))
    }

    fn query(&mut self) -> Result<QueryText<'a>, Refusal> {
        let function = self.name()?;
        self.expect("(")?;
        let ask = self.ask()?;
        self.expect(")")?;
        Ok(QueryText { function, ask })
    }

    fn source(&mut self) -> Result<Source<'a>, Refusal> {
        let mut source = Source::default();
        while self.next < self.tokens.len() {
            if self.has("query") {
                source.queries.push(self.query()?);
            } else {
                if let "public" | "internal" | "fileprivate" | "private" = self.peek() {
                    self.take();
                }
                if self.has("protocol") {
                    source.protocols.push(self.protocol()?);
                } else {
                    self.expect("func")?;
                    source.functions.push(self.function()?);
                }
            }
            self.has(";");
        }
        Ok(source)
    }
}

/// What a text has, or the first place where it is not read.
pub fn parse(text: &str) -> Result<Source<'_>, Refusal> {
    let mut parser = Parser {
        tokens: tokens(text)?,
        next: 0,
        end: text.len(),
    };
    parser.source()
}
