//! A child of the published version_script.rs, whose private parts it sees: what a script is read
//! as, and what is kept of it.

use super::*;
use crate::asked::First;
use crate::kept::{self, Kept, KeptNode, Line, Lines, Matcher};
use crate::published::Accepted;
use host::class;

pub(crate) fn parse(text: &[u8]) -> bool {
    VersionScript::parse(ScriptData { raw: text }).is_ok()
}

pub(crate) fn script(text: &[u8]) -> Option<Accepted> {
    let script = VersionScript::parse(ScriptData { raw: text }).ok()?;
    let kept = match &script {
        VersionScript::Regular(script) => Kept::Nodes(script.versions.iter().map(node).collect()),
        VersionScript::Rust(script) => {
            Kept::Listed(script.global.iter().map(|name| name.to_vec()).collect())
        }
    };
    let nodes = nodes(text).expect("an accepted script is read again");
    Some(Accepted {
        nodes,
        kept,
        counts: Some([script.version_count(), script.parent_count()]),
    })
}

/// What `find_match` of a Regular script finds: a node, and its section (1 for local). The Rust kind
/// has none.
pub(crate) fn deciding(
    script: &VersionScript,
    name: &PreHashed<UnversionedSymbolName>,
) -> Option<(usize, usize)> {
    let VersionScript::Regular(script) = script else {
        return None;
    };
    let (node, section) = script.find_match(name)?;
    let local = matches!(section, VersionRuleSection::Local);
    assert!(local == script.is_local(name), "it answers alike");
    Some((node, usize::from(local)))
}

/// Which line of this node, section, language and class matches a name first, by the sets, patterns and
/// marks in which the Rust holds them; of the Rust kind by the globals that it lists.
pub(crate) fn first_of_script(
    text: &[u8],
    script: &VersionScript,
    [node, section, language]: [usize; 3],
    class: u64,
    name: &[u8],
) -> Option<First> {
    match script {
        VersionScript::Regular(script) => {
            let VersionBody { globals, locals } = &script.versions.get(node)?.version_body;
            first(text, [globals, locals][section], language, class, name)
        }
        VersionScript::Rust(script) => {
            let mut listed = script.global.iter();
            let is_listed = [node, section, language] == [0; 3] && class == class::EXACT;
            let part = listed.find(|part| is_listed && **part == name)?;
            Some(First::At(place(text, part)))
        }
    }
}

pub(crate) fn first(
    text: &[u8],
    rules: &MatchRules,
    language: usize,
    class: u64,
    name: &[u8],
) -> Option<First> {
    let rules = [&rules.general, &rules.cxx][language];
    let globs = match class {
        class::EXACT => {
            // A set keeps the first of equal parts.
            let part = rules.exact.get(&UnversionedSymbolName::prehashed(name))?;
            return Some(First::At(place(text, part.bytes())));
        }
        class::ESCAPED => return rules.escaped_exact.contains(name).then_some(First::Untold),
        class::ALL => return rules.matches_all().then_some(First::Untold),
        class::NON_STAR => &rules.nonstar_globs,
        _ => &rules.star_globs,
    };
    let name = str::from_utf8(name).expect("names are UTF-8 here");
    let number = globs.iter().position(|glob| glob.matches(name))?;
    Some(First::Number(number))
}

/// The nodes in order of reading: the steps of `parse_version_script`, by its own functions, with
/// the bodies as they are before they become sets.
fn nodes(text: &[u8]) -> winnow::Result<Vec<kept::Node>> {
    let input = &mut BStr::new(text);
    skip_comments_and_whitespace(input)?;
    if input.starts_with(b"{") {
        return Ok(vec![kept::Node {
            matchers: both(text, parse_version_section(input)?),
            ..Default::default()
        }]);
    }
    let mut nodes = vec![kept::Node::default()];
    while !input.is_empty() {
        let name = parse_token(input)?.to_vec();
        skip_comments_and_whitespace(input)?;
        let matchers = both(text, parse_version_section(input)?);
        let parent: &[u8] = take_until(0.., b';').parse_next(input)?;
        let parent = parent.to_vec();
        ";".parse_next(input)?;
        skip_comments_and_whitespace(input)?;
        nodes.push(kept::Node {
            name,
            matchers,
            parent,
        });
    }
    Ok(nodes)
}

pub(crate) fn refused_for_meaning(text: &[u8]) -> bool {
    is_for_meaning(parse_version_script(&mut BStr::new(text)))
}

/// Whether a reading failed for a glob or a parent.
pub(crate) fn is_for_meaning<T>(answer: winnow::Result<T>) -> bool {
    let error = answer.err();
    let cause = error.as_ref().and_then(ContextError::cause);
    matches!(
        cause.and_then(|cause| cause.downcast_ref()),
        Some(
            VersionScriptError::UnknownParentVersion
                | VersionScriptError::InvalidUtf8String
                | VersionScriptError::InvalidGlobPattern
        )
    )
}

fn both(text: &[u8], body: RawVersionBody) -> [Vec<Matcher>; 2] {
    [body.globals, body.locals].map(|section| {
        let matchers = section.into_iter();
        matchers.map(|read| matcher(text, read)).collect()
    })
}

/// A matcher that is read out of the text.
pub(crate) fn matcher(text: &[u8], read: ParsedSymbolMatcher) -> Matcher {
    let block = |language, matchers: Vec<SymbolMatcher>| {
        let lines = matchers.into_iter();
        Matcher::Extern {
            language,
            lines: lines.map(|matcher| line(text, matcher)).collect(),
        }
    };
    match read {
        ParsedSymbolMatcher::Single(matcher) => Matcher::Bare(line(text, matcher)),
        ParsedSymbolMatcher::Multiple(matchers) => block(0, matchers),
        ParsedSymbolMatcher::CxxMatchers(matchers) => block(1, matchers),
    }
}

fn line(text: &[u8], matcher: SymbolMatcher) -> Line {
    let (class, bytes, part) = match matcher {
        SymbolMatcher::Exact(part) => (class::EXACT, part.to_vec(), Some(part)),
        // Unescaped when it is kept.
        SymbolMatcher::EscapedExact(part) => (class::ESCAPED, unescape_pattern(part), Some(part)),
        SymbolMatcher::NonstarGlob(glob) => (class::NON_STAR, bytes(&glob), None),
        SymbolMatcher::StarGlob(glob) => (class::STAR, bytes(&glob), None),
        SymbolMatcher::MatchesAll => (class::ALL, Vec::new(), None),
    };
    let place = part.map(|part| place(text, part));
    Line {
        class,
        bytes,
        place,
    }
}

/// Where the token starts that the Rust holds this part of: the part has lost the token's quotes, where
/// it had some. No token follows a quote that is not its own.
fn place(text: &[u8], part: &[u8]) -> usize {
    let start = part.as_ptr() as usize - text.as_ptr() as usize;
    match text[..start].last() {
        Some(b'"') => start - 1,
        _ => start,
    }
}

fn bytes(glob: &Pattern) -> Vec<u8> {
    glob.as_str().as_bytes().to_vec()
}

fn node(version: &Version) -> KeptNode {
    let VersionBody { globals, locals } = &version.version_body;
    KeptNode {
        name: version.name.to_vec(),
        parent: version.parent_index.map(usize::from),
        lines: [languages(globals), languages(locals)],
    }
}

pub(crate) fn languages(rules: &MatchRules) -> [Lines; 2] {
    [lines(&rules.general), lines(&rules.cxx)]
}

fn lines(rules: &BasicMatchRules) -> Lines {
    Lines {
        exact: rules
            .exact
            .iter()
            .map(|name| name.bytes().to_vec())
            .collect(),
        escaped: rules.escaped_exact.iter().cloned().collect(),
        non_star: rules.nonstar_globs.iter().map(bytes).collect(),
        star: rules.star_globs.iter().map(bytes).collect(),
        all: rules.matches_all,
    }
}
