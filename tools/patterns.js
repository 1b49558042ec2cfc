#!/usr/bin/env node
"use strict";
// Rows of patterns and texts for crates/schema_cases, with the answers of this engine (ECMA-262):
//   node tools/patterns.js            the lines of its standard input
//   node tools/patterns.js --answers  the lines of its standard output
// A pattern is tried in unicode mode, or else outside of it where it has no meaning there; in that case neither it nor a
// text has a character beyond U+FFFF, so that both ways of counting characters agree. What has a meaning here and isn't
// plain is listed under `others`, and its answer is `none`.

const rows = [];
const seen = new Set();

function compiled(pattern) {
  for (const mode of ["u", ""]) {
    try {
      return [new RegExp(pattern, mode), mode];
    } catch {}
  }
  return [null, ""];
}

function ascii(words) {
  const texts = words.map((word) =>
    JSON.stringify(word).replace(/[\u007f-\uffff]/g, (c) => "\\u" + c.charCodeAt(0).toString(16).padStart(4, "0")),
  );
  return "[" + texts.join(", ") + "]";
}

function add(pattern, texts, answer) {
  if (seen.has(pattern)) return;
  seen.add(pattern);
  const whole = (word) => !/[\ud800-\udbff](?![\udc00-\udfff])|(?<![\ud800-\udbff])[\udc00-\udfff]/.test(word);
  texts = [...new Set(texts)].filter(whole);
  const [found, mode] = compiled(pattern);
  let told = answer;
  if (told === undefined && found === null) told = "none";
  if (told === undefined) {
    if (mode === "" && /[\ud800-\udfff]|\\u[dD][89abAB]/.test([pattern, ...texts].join(""))) throw new Error(`counted otherwise: ${pattern}`);
    told = texts.map((text) => (found.test(text) ? "yes" : "no")).join(" ");
  }
  rows.push([ascii([pattern, ...(told === "none" ? texts.slice(0, 2) : texts)]), told]);
}

const others = (pattern, ...texts) => add(pattern, texts, "none");

const at = (code) => String.fromCodePoint(code);
const around = (code) => [code - 1, code, code + 1].filter((c) => c >= 0 && c <= 0x10ffff).map(at);
const hex = (code, width) => code.toString(16).padStart(width, "0");

// ---- sets, and the characters on either side of each of their bounds

const ranges = {
  d: [[0x30, 0x39]],
  w: [[0x30, 0x39], [0x41, 0x5a], [0x5f, 0x5f], [0x61, 0x7a]],
  s: [[9, 13], [0x20, 0x20], [0xa0, 0xa0], [0x1680, 0x1680], [0x2000, 0x200a], [0x2028, 0x2029], [0x202f, 0x202f], [0x205f, 0x205f], [0x3000, 0x3000], [0xfeff, 0xfeff]],
};
const extra = ["\u0085", "\u180e", "\u200b", "\u00e9", "\u0660", "\uff11", "\ufffd", "\u{1f600}", "", "ab"];
for (const [letter, bounds] of Object.entries(ranges)) {
  const texts = bounds.flatMap(([low, high]) => [...around(low), ...around(high)]).concat(extra);
  for (const name of [letter, letter.toUpperCase()]) {
    for (const pattern of [`^\\${name}$`, `^[\\${name}]$`, `^[^\\${name}]$`, `^[\\${name}.]$`, `^[^\\${name}.]$`]) add(pattern, texts);
    add(`\\${name}`, texts);
    add(`^\\${name}+$`, ["  ", "12", "a1_", "a b", "", "\u2028\t", "-"]);
    add(`^\\${name}*?$`, ["  ", "12", "a1_", "a b", ""]);
    add(`^\\${name}{2}$`, ["  ", "12", "a1", "a", "--", "\u00a0\u3000"]);
  }
}
add("^.$", [..."\t\n\v\f\r\u0085\u2027\u2028\u2029\u202a\ufeff", "\u{10ffff}", "\u{1f600}", ""]);
add("^[.]$", [".", "a", "\n"]);
for (const [one, two] of ["dD", "wW", "sS", "ds", "dw", "ws", "DS", "DW", "WS"]) {
  const texts = ["1", "a", "_", " ", "\n", "-", "\u00e9", "\u2003", "\u{1f600}", ""];
  add(`^[\\${one}\\${two}]$`, texts);
  add(`^[^\\${one}\\${two}]$`, texts);
  add(`^\\${one}\\${two}$`, ["1 ", "a ", "1a", "a1", " 1", "--", "_-"]);
}

// ---- escapes of single characters

const controls = { t: 9, n: 10, v: 11, f: 12, r: 13, 0: 0 };
for (const [letter, code] of Object.entries(controls)) {
  add(`^\\${letter}$`, [...around(code), letter, "\\" + letter]);
  add(`^[\\${letter}]$`, [...around(code), letter]);
  add(`^[^\\${letter}]$`, [...around(code), letter]);
  add(`^[\\${letter}-\\x1f]+$`, [at(code), "\x1f", " ", at(code + 1) + "\x1e"]);
}
for (const letter of "AaGgIiJjMmZz") {
  const code = letter.charCodeAt(0) % 32;
  add(`^\\c${letter}$`, [...around(code), letter, "c" + letter]);
  add(`^[\\c${letter}]$`, [...around(code), letter, "c"]);
}
for (const code of [0, 1, 0x1f, 0x20, 0x2d, 0x41, 0x5b, 0x5c, 0x5d, 0x5e, 0x7e, 0x7f, 0x80, 0x85, 0xa0, 0xe9, 0xff]) {
  add(`^\\x${hex(code, 2)}$`, around(code));
  add(`^[\\x${hex(code, 2).toUpperCase()}]$`, around(code));
  add(`^[^\\x${hex(code, 2)}]$`, around(code));
}
for (const code of [0, 0x24, 0x2a, 0x41, 0x5c, 0x7f, 0x80, 0xff, 0x100, 0x7ff, 0x800, 0x1680, 0x2028, 0xd7ff, 0xe000, 0xfeff, 0xfffd, 0xffff]) {
  add(`^\\u${hex(code, 4)}$`, around(code));
  add(`^[\\u${hex(code, 4).toUpperCase()}]+$`, around(code).concat(at(code === 0xd7ff ? 0xd7ff : code).repeat(2)));
  add(`^[^\\u${hex(code, 4)}]$`, around(code));
}
for (const code of [0x10000, 0x10401, 0x1f600, 0x1f1e6, 0xfffff, 0x100000, 0x10ffff]) {
  const pair = [...at(code)].join("").split("").map((unit) => `\\u${hex(unit.charCodeAt(0), 4)}`).join("");
  add(`^${pair}$`, [...around(code), "a"]);
  add(`^[${pair}]$`, [...around(code), "a"]);
  add(`^[^${pair}]$`, [...around(code), "a"]);
  add(`^${pair}*$`, ["", at(code).repeat(3), at(code) + "a"]);
  add(`^${pair.toUpperCase().replaceAll("\\U", "\\u")}{2}$`, [at(code), at(code).repeat(2)]);
  add(`^[\\u0000-${pair}]$`, [...around(code), "a", "\0"]);
}
for (const sign of "!\"#$%&'()*+,-./:;<=>?@[\\]^_`{|}~ ") {
  add(`^\\${sign}$`, [sign, "\\", "a", ""]);
  add(`^[\\${sign}]$`, [sign, "\\", "a", ""]);
  add(`^[^\\${sign}a]$`, [sign, "b", "a"]);
}
for (const sign of ["\u00e9", "\u0416", "\u2028", "\n", "\t"]) add(`^\\${sign}$`, [sign, "\\", "a"]);
add("^[\\b]$", ["\b", "b", "\\", ""]);
add("^[^\\b]$", ["\b", "b", "a"]);
add("^[\\b-\\n]$", ["\x07", "\b", "\t", "\n", "\v"]);

// ---- groups, counts and bars

for (const many of ["", "?", "*", "+", "??", "*?", "+?", "{2}", "{2}?", "{1,}", "{1,}?", "{0,2}", "{0,2}?", "{2,3}", "{0}", "{0}?", "{02}"]) {
  add(`^(?:ab)${many}$`, ["", "ab", "abab", "ababab", "abababab", "a"]);
  add(`^(?:a|bc)${many}$`, ["", "a", "bc", "abc", "bcabc", "b"]);
  add(`^(a)${many}b$`, ["b", "ab", "aab", "aaab", "aaaab"]);
  add(`^[^\\s,]${many}$`, ["", "a", "aa", "aaa", "a,", " "]);
}
for (const [pattern, texts] of [
  ["(?:)", ["", "a"]],
  ["^(?:)*$", ["", "a"]],
  ["^(?:|a)+$", ["", "a", "aa", "b"]],
  ["^(?:(?:a)|(?:(b)))+$", ["ab", "ba", "c", ""]],
  ["^(?:a(?:b(?:c)?)?)?$", ["", "a", "ab", "abc", "abcd", "b"]],
  ["^(?:a*)*$", ["", "aa", "b"]],
  ["^(?:a*?)*?$", ["", "aa", "b"]],
  ["^(?:a?){3}$", ["", "aa", "aaa", "aaaa"]],
  ["^(.*?)$", ["", "ab", "a\nb"]],
  ["^(.*?),(.*?)$", ["a,b", ",", "a", "a,b,c"]],
  ["a+?", ["", "a", "ba"]],
  ["a??", ["", "b"]],
  ["^a+?b+?$", ["ab", "aabb", "a", "b"]],
  ["(?::)", [":", ""]],
  ["^(?:?)$", [""]],
  ["(?:", [""]],
  ["(?:a", ["a"]],
  ["(?:a))", ["a"]],
  ["(?", ["?"]],
  ["(?)", ["?"]],
  ["?", [""]],
  ["(??:a)", ["a"]],
  ["(?:*a)", ["a"]],
  ["a|*", ["a"]],
  ["a**", ["a"]],
  ["a*+", ["a"]],
  ["a++", ["a"]],
  ["a???", ["a"]],
  ["a*??", ["a"]],
  ["a{2}??", ["aa"]],
  ["a{2}{3}", ["aa"]],
  ["a{2}*", ["aa"]],
  ["a?{2}", ["aa"]],
  ["^*", ["a"]],
  ["^?", ["a"]],
  ["$+", ["a"]],
  ["$*?", ["a"]],
  ["^{2}", ["a"]],
  ["\\b*", ["a"]],
  ["\\b?", ["a"]],
  ["\\B{2}", ["a"]],
  ["(?:^)*a", ["a", "ba", "b"]],
  ["(?:^a|b)+$", ["ab", "bb", "cb", "ca"]],
  ["(?:\\b)*a", ["a", "ba"]],
  ["(?:$)?", ["a"]],
  ["(?:a$|b)*c", ["c", "bc", "ac"]],
]) add(pattern, texts);

// ---- ends and boundaries of words

const phrases = ["", "a", "one", "two one", "one two", "none", "oned", "one-two", "_one", "one1", "\u00e9one", "one\u00e9", "one\u{1f600}", "\none\n", " ", "-", "\u00e9"];
for (const pattern of ["\\b", "\\B", "\\bone", "one\\b", "\\bone\\b", "\\Bone", "one\\B", "\\Bone\\B", "^\\b", "\\b$", "^\\B", "\\B$", "^\\B$", "^\\b$", "\\b\\b", "\\b\\B", "\\b.\\b", "\\b[^\\w]", "\\w\\B\\w", "\\W\\b\\w", "e\\b(?:-|$)", "(?:\\bone|two\\b)", "(?:\\b|\\B)", "\\b(\\d|\\d\\d)\\b", "\\B\u00e9\\B", "\\b\u00e9"]) add(pattern, phrases);

// ---- brackets and braces that stand for themselves

for (const [pattern, texts] of [
  ["]", ["]", "a"]],
  ["^]$", ["]", ""]],
  ["^a]b$", ["a]b", "ab"]],
  ["^]+$", ["]", "]]", ""]],
  ["^[a]]$", ["a]", "]", "a"]],
  ["}", ["}", "a"]],
  ["^a}$", ["a}", "a"]],
  ["^}{2}$", ["}}", "}", "}{2}"]],
  ["{", ["{", "a"]],
  ["^{$", ["{", ""]],
  ["^a{$", ["a{", "a"]],
  ["^a{}$", ["a{}", "a"]],
  ["^a{,}$", ["a{,}", "a"]],
  ["^a{,2}$", ["a{,2}", "", "a", "aa"]],
  ["^a{1$", ["a{1", "a"]],
  ["^a{1,$", ["a{1,", "a"]],
  ["^a{1,2$", ["a{1,2", "a"]],
  ["^a{1, 2}$", ["a{1, 2}", "a", "aa"]],
  ["^a{ 1}$", ["a{ 1}", "a"]],
  ["^a{1 }$", ["a{1 }", "a"]],
  ["^a{x}$", ["a{x}", "a"]],
  ["^a{-1}$", ["a{-1}", "a"]],
  ["^a{1,x}$", ["a{1,x}", "a"]],
  ["^a{1;2}$", ["a{1;2}", "a"]],
  ["^a{1}}$", ["a}", "a{1}}"]],
  ["^{{1}$", ["{", "{{1}"]],
  ["^{a}$", ["{a}", "a"]],
  ["^{{a}}$", ["{{a}}", "{a}"]],
  ["^{}$", ["{}", ""]],
  ["^{,1}$", ["{,1}", ""]],
  ["^a{2}{$", ["aa{", "aa"]],
  ["^a{2{3}$", ["a{222", "aa"]],
  ["^a{\\d}$", ["a{1}", "a"]],
  ["^(?:{)$", ["{", ""]],
  ["^x|{$", ["x", "{", "a"]],
  ["^{*$", ["", "{{", "a"]],
  ["^{+?$", ["{", "{{", ""]],
  ["^a*{$", ["aa{", "{", "a"]],
  ["^\\{a}$", ["{a}", "a"]],
  ["^\\${a}$", ["${a}", "a"]],
  ["{2}", ["a"]],
  ["{2,}", ["a"]],
  ["{2,3}", ["a"]],
  ["|{1}", ["a"]],
  ["({1})", ["a"]],
  ["(?:{1})", ["a"]],
  ["a{3,2}", ["aaa"]],
  ["a{1,0}", ["a"]],
  ["{3,2}", ["a"]],
  ["^a{0,0}$", ["", "a"]],
  ["^a{2,02}$", ["aa", "a"]],
  ["^[]$", ["", "]"]],
  ["[]", ["", "a", "]"]],
  ["[^]", ["", "a", "\n", "\u{1f600}", "\u2028"]],
  ["^[^]$", ["", "a", "\n", "^", "\u{10ffff}", "\ud7ff", "\ue000"]],
  ["^[^]*$", ["", "a\nb"]],
  ["[]a", ["a", "]a"]],
  ["^[]a]$", ["a", "]", "a]"]],
  ["^[^]a]$", ["ba]", "a", "]a]"]],
  ["[]*", ["a"]],
  ["^a[]?b$", ["ab", "a]b"]],
  ["[", ["["]],
  ["[a", ["a"]],
  ["[^", ["a"]],
  ["[^a", ["a"]],
  ["[a\\]", ["a"]],
  ["[\\", ["a"]],
  ["^[[]$", ["[", "]"]],
  ["^[[a]]$", ["a]", "[]", "a"]],
  ["^[[:alpha:]]$", ["a]", ":]", "b]", "a"]],
  ["^[a&&b]$", ["a", "&", "b", "c"]],
  ["^[a--b]$", ["a"]],
  ["^[+--]$", ["+", ",", "-", "."]],
  ["^[--0]$", ["-", ".", "0", "1", ","]],
  ["^[---]$", ["-", "a"]],
  ["^[----]$", ["-", "a"]],
  ["^[a~~b]$", ["a", "~", "b", "c"]],
  ["^[#a ]$", ["#", " ", "a", "b"]],
  ["^#a b$", ["#a b", "#ab"]],
  ["^[&~]$", ["&", "~", "a"]],
  ["^[^^]$", ["^", "a"]],
  ["^[a^]$", ["^", "a", "b"]],
  ["^[\\^a]$", ["^", "a", "b"]],
]) add(pattern, texts);

// ---- hyphens in classes

const marks = ["-", "a", "b", "z", "m", "0", "5", "9", "_", ".", "+", " ", "/"];
for (const inside of ["-", "--", "a-", "-a", "^-", "^-a", "a-z-", "a-z-9", "a-c-e", "-a-c", "\\-a", "a\\-z", "a-\\-", "\\--a", "+\\--a", "\\w-", "-\\w", "\\w-.", "\\d-z", "\\d-\\w", "a-\\d", "a-\\d-z", "\\d-a-z", "\\w-a-z", "\\s-+", "\\S-a", "\\D-0", "^\\w-.", "^\\d-a", "0-9\\-_", "+-.", "--.", "\\.-\\/", "!--", "a-a", "_-_", "\\w.-", "\\w\\-.", ".\\w-", "a-c\\d-", "-\\d-"]) add(`^[${inside}]$`, marks);
for (const inside of ["z-a", "a--", "b-a-c", "\\x62-\\x61", "9-0", "a-\\x60", "\\u0062-a", "\\uD83D\\uDE01-\\uD83D\\uDE00"]) add(`[${inside}]`, ["a", "b"]);

// ---- characters beyond ASCII

for (const [pattern, texts] of [
  ["^[\u0430-\u044f]+$", ["\u0430", "\u044f", "\u042f", "\u0450", "a"]],
  ["^[^\u0430-\u044f]+$", ["\u0430", "\u044f", "\u042f", "\u0450", "a"]],
  ["^[\u00e9\u00e8]$", ["\u00e9", "\u00e8", "e", "\u00ea"]],
  ["^[a-\u00ff]$", ["`", "a", "\u00ff", "\u0100"]],
  ["^[\u{1f1e6}-\u{1f1ff}]{2}$", ["\u{1f1e9}\u{1f1ea}", "\u{1f1e9}", "DE", "\u{1f1e5}\u{1f1e6}"]],
  ["^\u{1f600}+$", ["\u{1f600}", "\u{1f600}\u{1f600}", "\u{1f601}"]],
  ["^[^\u{1f600}]$", ["\u{1f600}", "\u{1f601}", "a"]],
  ["^[\\u0020-\\uD7FF\\uE000-\\uFFFD\\uD800\\uDC00-\\uDBFF\\uDFFF\\r\\n\\t]*$", ["", "a\r\n\t", "\v", "\x1f", " ", "\ud7ff", "\ue000", "\ufffd", "\ufffe", "\u{10000}", "\u{10ffff}"]],
  ["^[\\u0009\\u000A\\u000D\\u0020-\\u00FF]+$", ["\t\n\r", "\b", "\x1f", " ", "\u00ff", "\u0100"]],
  ["^[^\\x00-\\x1F\\x7F]*$", ["", "a", "\x1f", "\x7f", " ", "\x80"]],
  ["^[^\\u0000]+$", ["", "a", "\0"]],
  ["[^\\x00-\\uFFFF]", ["a", "\uffff", "\u{10000}"]],
  ["^[\\0-\\x7f]$", ["\0", "\x7f", "\x80"]],
  ["^[\\s\\S]$", ["a", "\n", "\u{1f600}", ""]],
  ["^[^\\s\\S]$", ["a", "\n", "\u{1f600}", ""]],
  ["^[\\w\\W\\s\\S]*$", ["", "a\nb"]],
  ["^[\\D\\d]$", ["1", "a"]],
  ["^\u00e9\\b$", ["\u00e9", "\u00e9a"]],
]) add(pattern, texts);

for (const [low, high] of [[0xe0, 0xff], [0x370, 0x3ff], [0x410, 0x44f], [0x5d0, 0x5ea], [0x4e00, 0x9fff], [0xac00, 0xd7a3], [0xe000, 0xf8ff], [0xff10, 0xff19], [0x10000, 0x1007f], [0x1f300, 0x1f5ff], [0x100000, 0x10ffff]]) {
  const texts = [...around(low), ...around(high), at(low) + at(high), "a", "-", ""];
  const range = `${at(low)}-${at(high)}`;
  add(`^[${range}]$`, texts);
  add(`^[^${range}]$`, texts);
  add(`^[a${range}-]+$`, texts);
  add(`^[\\s${range}]*?$`, texts.concat(" " + at(low), "\u3000"));
  add(`^[\\u0000-${at(low)}]$`, texts);
}

// ---- as schemas have them

for (const [pattern, texts] of [
  ["^[^\\s]*$", ["", "ab", "a b", "\t"]],
  ["\\S", ["", " ", "a", " a "]],
  ["^\\S(?:.*\\S)?$", ["a", "a b", " a", "a ", ""]],
  ["^[1-5](?:\\d{2}|XX)$", ["200", "2XX", "600", "20", "5XXX"]],
  ["^(https?:\\/\\/[^\\s\\/$.?#].[^\\s]*)|(file:\\/\\/([a-zA-Z]:|\\/)[^\\x00]+)$", ["https://a.b", "http:// a", "file:///x", "file://C:x", "ftp://a"]],
  ["^(arn:(aws[A-Za-z\\-]*?|\\*):[^:]+:[^:]*(:(?:\\d{12}|\\*|aws)?:.+|)|\\*)$", ["*", "arn:aws:s3:::b", "arn:aws-cn:s3:", "arn:aws:s3:eu:123456789012:x", "arn:x:s3:"]],
  ["(?:[ \\r\\n\\t].*)*$", ["", "a", " a\nb"]],
  ["^[^\\/#:\\n]{1,64}$", ["a", "", "a/b", "a\n", "\ra"]],
  ["^(.*?)", ["", "a"]],
  ["[\\w-.~]+", ["a", "-", "~", ".", "+", ""]],
  ["[A-Za-z0-9_\\-\\ ]+", ["a b", " ", "+", ""]],
  ["\\[a-zA-Z0-9_-:/]+", ["[a-zA-Z0-9_-:/]", "a", "[a-zA-Z0-9_-:/]]]"]],
  ["\\b([0-9]|[0-9][0-9])\\b", ["7", "a7", "77", "777", "a 7 b", "-7"]],
  ["^-----BEGIN CERTIFICATE-----.*(.|\\\\\\n)*-----END CERTIFICATE-----\\\\n?$", ["-----BEGIN CERTIFICATE-----x-----END CERTIFICATE-----\\", "-----BEGIN CERTIFICATE-----x-----END CERTIFICATE-----"]],
  ["^(?:[A-Za-z0-9+/]{4})*(?:[A-Za-z0-9+/]{2}==|[A-Za-z0-9+/]{3}=)?$", ["", "YQ==", "YWI=", "YWJj", "YQ=", "YQ"]],
  ["^(?:(?:25[0-5]|2[0-4][0-9]|[01]?[0-9][0-9]?)\\.){3}(?:25[0-5]|2[0-4][0-9]|[01]?[0-9][0-9]?)$", ["1.2.3.4", "255.255.255.255", "256.1.1.1", "1.2.3"]],
  ["^\\d+(?:\\.\\d+)*(?:[-+]\\w+)?$", ["1", "1.2.3-a", "1.", "1.2+b_c", "1-"]],
  ["^\\s*$", ["", " \t\n", "\u00a0\ufeff", "a", "\u200b"]],
  ["^(?:\\$\\{[^}]+\\}|[^$])*$", ["${a}", "a${b}c", "${}", "$a"]],
  ["^${a}$", ["${a}", ""]],
]) add(pattern, texts);

// ---- lookaheads and lookbehinds at the two ends

const ends = [
  ["^(?!aws:).+$", ["aws:a", "aws", "a", "aaws:", "", "AWS:a"]],
  ["^(?!aws:)", ["aws:", "", "a", "aaws:"]],
  ["^(?=a)", ["a", "", "ba", "ab"]],
  ["^(?=a)b", ["ab", "b", "a", ""]],
  ["^(?=a)ab?$", ["a", "ab", "b", "abb"]],
  ["^(?=.{1,64}$)[a-z]+", ["a", "a".repeat(64), "a".repeat(65), "", "1", "a1"]],
  ["^(?=.{3,5}$)[a-z]+-[a-z]+$", ["a-b", "ab-cd", "ab-cde", "-", "abcd"]],
  ["^(?!.*--)[a-z-]+$", ["a-b", "a--b", "--", "-", "ab", ""]],
  ["^(?!.*--)[a-z0-9](?:[a-z0-9-]*[a-z0-9])?$", ["a", "a-b", "a--b", "-a", "a-", "a-b-c"]],
  ["^(?!-)[a-z-]+(?<!-)$", ["a", "-a", "a-", "-", "a-a", ""]],
  ["^.*(?<!-)$", ["", "a", "a-", "-", "-a"]],
  ["^(?! )[\\p{L} ]*(?<! )$", ["", "a", " a", "a ", "a b", "\u00e9 \u00e9", "1"]],
  ["^(?! )[\\p{L}\\p{N}\\p{Z}_-]*(?<! )$", ["", "a", " a", "a ", "a-1_", "\u2003a", " "]],
  ["^(?!\\s)[^<>]*(?<!\\s)$", ["", "a", "\ta", "a\u3000", "a b", "<"]],
  ["^(?!\\s*$).+", ["", " ", "\t ", "a", " a", "\n"]],
  ["^(?!\\s*$).+$", [" ", "a", "a\n", " a "]],
  ["^(?=.*[a-z])(?=.*[A-Z])(?=.*\\d).{8,}$", ["aB345678", "ab345678", "AB345678", "aBcdefgh", "aB34567", "12345678aB"]],
  ["^(?=.*\\d)(?!.*\\s).+$", ["a1", "a", "a 1", "1", ""]],
  ["^(?!(?:a|b)$).*$", ["a", "b", "c", "ab", ""]],
  ["^(?!a|b)c*$", ["c", "a", "b", "", "cc"]],
  ["^(?!(a|b)*$)[abc]+$", ["ab", "abc", "c", "", "ba"]],
  ["^(?=a|b)[abc]$", ["a", "b", "c"]],
  ["^(?=(?:ab)+$)[ab]*", ["ab", "abab", "aba", "", "ba"]],
  ["^(?!default$)(?!null$)[a-z]+$", ["default", "null", "defaults", "nul", "a"]],
  ["^(?!.*\\.\\.)[a-z.]+$", ["a.b", "a..b", "..", ".", "a"]],
  ["^(?!.*[-_]$)\\w[\\w-]*$", ["a", "a-", "a_", "a-b", "-a"]],
  ["^(?!xn--)[a-z-]+$", ["xn--a", "xn-a", "axn--", "x"]],
  ["^(?!arn:)(?!.*\\/$)[\\w:\\/]+$", ["arn:a", "a/b", "a/", "a:arn:"]],
  ["^(?=[^A-Z]*$)(?=\\S)", ["a", "A", " ", "aA", "", "1 "]],
  ["^(?!^a)b", ["b", "a", "ab"]],
  ["^(?=^a)a", ["a", "b"]],
  ["^(?=$)", ["", "a"]],
  ["^(?!$)", ["", "a"]],
  ["^(?!$)a*$", ["", "a", "b"]],
  ["^(?=)a", ["a", "", "b"]],
  ["^(?!)a", ["a", ""]],
  ["^(?!)", ["", "a"]],
  ["^(?=\\b)", ["a", " ", "", "\u00e9"]],
  ["^(?!\\b).", ["a", " ", "", "\u00e9"]],
  ["^(?=a*?b)a*", ["b", "aab", "aa", ""]],
  ["^(?=a{2}).{3}$", ["aaa", "aab", "aba", "aa"]],
  ["^(?=.)(?=.)(?=.)[^]$", ["a", "\n", "", "\u{1f600}"]],
  ["^(?=[\\s\\S]{2}$)", ["ab", "a", "a\n", "\u{1f600}\u{1f600}", "\u{1f600}"]],
  ["^(?=\\u{1F600})", ["\u{1f600}", "a", "u"]],
  ["^(?=\\uD83D\\uDE00).{2}$", ["\u{1f600}a", "a\u{1f600}", "\u{1f600}"]],
  ["^(?!\\p{Lu})\\p{L}+$", ["ab", "Ab", "\u00e9", "\u00c9", "1"]],
  ["a(?<=a)$", ["a", "ba", "b", "ab"]],
  ["[ab]+(?<!b)$", ["a", "ab", "ba", "bb", "cba", ""]],
  ["(?<!a)$", ["", "a", "b", "ab", "ba"]],
  ["(?<=a)$", ["", "a", "b", "ba", "ab"]],
  ["(?<=^a)$", ["a", "ba", ""]],
  ["(?<=^)$", ["", "a"]],
  ["(?<!^)$", ["", "a"]],
  ["(?<=)$", ["", "a"]],
  ["(?<!)$", ["", "a"]],
  ["^(?<=a)$", ["", "a"]],
  ["^(?<!a)$", ["", "a"]],
  ["^[a-z.]*(?<!\\.)(?<!\\.git)$", ["a", "a.", "a.git", "a.gi", ".git", "git"]],
  ["^[\\w.-]+(?<![.-])$", ["a", "a.", "a-", "a.b", "-", ""]],
  ["^[^]*(?<=a|bb)$", ["a", "b", "bb", "abb", "\na", ""]],
  ["^.*(?<=ab|b)(?<!cab)$", ["ab", "b", "cab", "xab", "a"]],
  ["^.*(?<=a*b)$", ["b", "aab", "a", "ba"]],
  ["^.*(?<=^a*b)$", ["b", "aab", "cb", "ba"]],
  ["^.*(?<!\\s)$", ["a", "a ", "", "a\u00a0", " a"]],
  ["^.*(?<=\\b)$", ["a", "a ", "", "\u00e9"]],
  ["^(?=a)(?<=a)$", ["a", ""]],
  ["^(?=a)[ab]+(?<=b)$", ["ab", "a", "b", "abab", "ba"]],
  ["^(?!a)(?:b|c)(?<!c)$", ["b", "c", "a"]],
  ["^(?!a)(b|a)$", ["a", "b"]],
  ["^(?=\\()\\([a-z]*\\)(?<=\\))$", ["()", "(a)", "a)", "(a"]],
  ["^(?=[)])[^a]$", [")", "a"]],
  ["^(?!\\))a", ["a", ")"]],
  ["^(?=\\$)[$]a$", ["$a", "a"]],
  ["^(?!a)\\b.{2}\\B(?<!-)$", ["bb", "b-", "ab", "b "]],
  ["^(?!a){?$", ["{", "", "a"]],
  ["^(?!a)]$", ["]", "a"]],
  ["^(?!\\x00)[\\w-.]+(?<!\\.)$", ["a-", "a.", ".", "a"]],
];
for (const [pattern, texts] of ends) add(pattern, texts);

// ---- what has a meaning in unicode mode alone

const categories = { L: "ultmoC", M: "nce", N: "dlo", P: "cdseifo", S: "mcko", Z: "slp", C: "cfno" };
const kinds = ["A", "a", "\u01c5", "\u02b0", "\u00aa", "\u0301", "\u0903", "\u20dd", "1", "\u2167", "\u00bd", "_", "-", "(", ")", "\u00ab", "\u00bb", "!", "+", "$", "^", "\u00a9", " ", "\u2028", "\u2029", "\0", "\u00ad", "\ue000", "\uffff", "\u{1d400}", "\u{1f600}", "\u4e2d", ""];
for (const [first, seconds] of Object.entries(categories)) {
  for (const name of [first, ...[...seconds].map((second) => first + second)]) {
    add(`^\\p{${name}}$`, kinds);
    add(`^\\P{${name}}$`, kinds);
    add(`^[\\p{${name}}_]$`, kinds);
    add(`^[^\\P{${name}}]+$`, kinds);
  }
}
for (const [pattern, texts] of [
  ["[^\\p{C}]+", ["a", "\0", ""]],
  ["^\\P{C}+$", ["ab", "a\0", ""]],
  ["^[\\p{L}\\p{Z}\\p{N}_.:/=+\\-@]*$", ["", "a 1_.:/=+-@", "\u00e9\u0661\u2003", "a#", "\t"]],
  ["^([\\p{L}\\p{Z}\\p{N}_.:\\/=+\\-@]*)$", ["", "a/b", "a,b"]],
  ["^[\\p{L}\\p{N}]+(?:[ -]\\p{L}+)*?$", ["a1 b", "a1-\u00e9", "a_", ""]],
  ["^[\\p{L}-]+$", ["a-b", "a_"]],
  ["^[-\\p{L}]+$", ["a-b", "a_"]],
  ["^[\\d\\p{L}\\s]+$", ["1 a\u00e9", "-"]],
  ["^\\p{Lu}\\p{Ll}{1,2}?$", ["Ab", "Abc", "ab", "\u00c9\u00e9"]],
  ["^\\p{L}\\b$", ["a", "\u00e9"]],
  ["\\p{Sc}\\d+\\.\\d{2}", ["\u20ac1.50", "1.50", "$12.345"]],
  ["^\\u{41}$", ["A", "u{41}", "u".repeat(41)]],
  ["^\\u{0}$", ["\0", "u", ""]],
  ["^\\u{000000041}+$", ["A", "AA", "B"]],
  ["^\\u{1F600}$", ["\u{1f600}", "\u{1f601}"]],
  ["^\\u{10fFfF}$", ["\u{10ffff}", "\u{10fffe}"]],
  ["^[\\u{41}-\\u{5A}]+$", ["AZ", "[", "@"]],
  ["^[^\\u{1F600}-\\u{1F64F}]$", ["\u{1f5ff}", "\u{1f600}", "\u{1f64f}", "\u{1f650}"]],
  ["^\\u{61}\\uD83D\\uDE00\\x62$", ["a\u{1f600}b", "a"]],
  ["^\\u{61}\\/\\$\\^\\.\\{\\}\\]$", ["a/$^.{}]", "a"]],
  ["^[\\u{61}\\-\\]]+$", ["a-]", "b"]],
  ["^\\u{61}{2}$", ["aa", "a"]],
  ["^\\cA\\0\\t\\u{61}[\\b]$", ["\x01\0\ta\b", "a"]],
  ["\\u{61}[]", ["a"]],
  ["\\u{61}[^]", ["a", "a\n"]],
]) add(pattern, texts);

// ---- properties of Unicode: names, and some runs of characters that they take
// Where this engine has Unicode 17, a character that it gives other properties than Unicode 18 stands in no text: the new
// ones, U+0277, U+027C, U+0656, U+06E2, U+08D3, U+0B83, U+1CF5, U+1CF6, U+AB4B and U+AB4C.

const generalCategories = `
C Other: 0-1f 104d4-104d7 e01f0-10ffff
Cc Control cntrl: 0-1f 7f-9f
Cf Format: ad 2060-2064 e0020-e007f
Cn Unassigned: 378-379 10593 10fffe-10ffff
Co Private_Use: e000-f8ff f0000-ffffd 100000-10fffd
L Letter: 41-5a aae0-aaea 31350-33479
LC Cased_Letter: 41-5a 2c7e-2ce4 1e900-1e943
Ll Lowercase_Letter: 61-7a 1e69 1e922-1e943
Lm Modifier_Letter: 2b0-2c1 a60c 1e94b
Lo Other_Letter: aa d7cb-d7fb 31350-33479
Lt Titlecase_Letter: 1c5 1f98-1f9f 1ffc
Lu Uppercase_Letter: 41-5a 1e60 1e900-1e921
M Mark Combining_Mark: 300-36f a880-a881 e0100-e01ef
Mc Spacing_Mark: 903 a9b4-a9b5 1d16d-1d172
Me Enclosing_Mark: 488-489 20dd-20e0 a670-a672
Mn Nonspacing_Mark: 300-36f a8c4-a8c5 e0100-e01ef
N Number: 30-39 10341 1fbf0-1fbf9
Nd Decimal_Number digit: 30-39 ff10-ff19 1fbf0-1fbf9
Nl Letter_Number: 16ee-16f0 a6e6-a6ef 16ff4-16ff6
No Other_Number: b2-b3 108a7-108af 1f100-1f10c
P Punctuation punct: 21-23 30fb 1e95e-1e95f
Pc Connector_Punctuation: 5f fe33-fe34 ff3f
Pd Dash_Punctuation: 2d 2e5d 10ead
Pe Close_Punctuation: 29 29fd ff63
Pf Final_Punctuation: bb 2e05 2e21
Pi Initial_Punctuation: ab 2e02 2e20
Po Other_Punctuation: 21-23 a60d-a60f 1e95e-1e95f
Ps Open_Punctuation: 28 29da ff62
S Symbol: 24 3190-3191 1fbfa
Sc Currency_Symbol: 24 17db 1ecb0
Sk Modifier_Symbol: 5e 1fbf-1fc1 1f3fb-1f3ff
Sm Math_Symbol: 2b 25f8-25ff 1f8d0-1f8d8
So Other_Symbol: a6 3036-3037 1fbfa
Z Separator: 20 2028-2029 3000
Zl Line_Separator: 2028
Zp Paragraph_Separator: 2029
Zs Space_Separator: 20 2000-200a 3000`;
const scripts = `
Adlm Adlam: 1e900-1e94b 1e95e-1e95f
Aghb Caucasian_Albanian: 10530-10563 1056f
Ahom: 11700-1171a 11730-11746
Arab Arabic: 600-604 1eef0-1eef1
Armi Imperial_Aramaic: 10840-10855 10857-1085f
Armn Armenian: 531-556 fb13-fb17
Avst Avestan: 10b00-10b35 10b39-10b3f
Bali Balinese: 1b00-1b4c 1b4e-1b7f
Bamu Bamum: a6a0-a6f7 16800-16a38
Bass Bassa_Vah: 16ad0-16aed 16af0-16af5
Batk Batak: 1bc0-1bf3 1bfc-1bff
Beng Bengali: 980-983 9e6-9fe
Berf Beria_Erfe: 16ea0-16eb8 16ebb-16ed3
Bhks Bhaiksuki: 11c00-11c08 11c50-11c6c
Bopo Bopomofo: 2ea-2eb 31a0-31bf
Brah Brahmi: 11000-1104d 1107f
Brai Braille: 2800-28ff
Bugi Buginese: 1a00-1a1b 1a1e-1a1f
Buhd Buhid: 1740-1753
Cakm Chakma: 11100-11134 11136-11147
Cans Canadian_Aboriginal: 1400-167f 11ab0-11abf
Cari Carian: 102a0-102d0
Cham: aa00-aa36 aa5c-aa5f
Cher Cherokee: 13a0-13f5 ab70-abbf
Chrs Chorasmian: 10fb0-10fcb
Copt Coptic Qaac: 3e2-3ef 2cf9-2cff
Cpmn Cypro_Minoan: 12f90-12ff2
Cprt Cypriot: 10800-10805 1083f
Cyrl Cyrillic: 400-484 1e08f
Deva Devanagari: 900-950 a8e0-a8ff
Diak Dives_Akuru: 11900-11906 11950-11959
Dogr Dogra: 11800-1183b
Dsrt Deseret: 10400-1044f
Dupl Duployan: 1bc00-1bc6a 1bc9c-1bc9f
Egyp Egyptian_Hieroglyphs: 13000-13455 13460-143fa
Elba Elbasan: 10500-10527
Elym Elymaic: 10fe0-10ff6
Ethi Ethiopic: 1200-1248 1e7f0-1e7fe
Gara Garay: 10d40-10d65 10d8e-10d8f
Geor Georgian: 10a0-10c5 2d2d
Glag Glagolitic: 2c00-2c5f 1e026-1e02a
Gong Gunjala_Gondi: 11d60-11d65 11da0-11da9
Gonm Masaram_Gondi: 11d00-11d06 11d50-11d59
Goth Gothic: 10330-1034a
Gran Grantha: 11300-11303 11370-11374
Grek Greek: 370-373 101a0
Gujr Gujarati: a81-a83 af9-aff
Gukh Gurung_Khema: 16100-16139
Guru Gurmukhi: a01-a03 a66-a76
Hang Hangul: 1100-11ff ffda-ffdc
Hani Han: 2e80-2e99 31350-33479
Hano Hanunoo: 1720-1734
Hatr Hatran: 108e0-108f2 108fb-108ff
Hebr Hebrew: 5d0-5ea fb46-fb4f
Hira Hiragana: 3041-3096 1f200
Hluw Anatolian_Hieroglyphs: 14400-14646
Hmng Pahawh_Hmong: 16b00-16b45 16b7d-16b8f
Hmnp Nyiakeng_Puachue_Hmong: 1e100-1e12c 1e14e-1e14f
Hung Old_Hungarian: 10c80-10cb2 10cfa-10cff
Ital Old_Italic: 10300-10323 1032d-1032f
Java Javanese: a980-a9cd a9de-a9df
Kali Kayah_Li: a900-a92d a92f
Kana Katakana: 30a1-30fa 1b155
Kawi: 11f00-11f10 11f3e-11f5a
Khar Kharoshthi: 10a00-10a03 10a50-10a58
Khmr Khmer: 1780-17dd 19e0-19ff
Khoj Khojki: 11200-11211 11213-11241
Kits Khitan_Small_Script: 16fe4 18cff
Knda Kannada: c80-c8c cf1-cf3
Krai Kirat_Rai: 16d40-16d79
Kthi Kaithi: 11080-110c2 110cd
Lana Tai_Tham: 1a20-1a5e 1aa0-1aad
Laoo Lao: e81-e82 edc-edf
Latn Latin: 41-5a 10787-107b0
Lepc Lepcha: 1c00-1c37 1c4d-1c4f
Limb Limbu: 1900-191e 1944-194f
Lina Linear_A: 10600-10736 10760-10767
Linb Linear_B: 10000-1000b 10080-100fa
Lisu: a4d0-a4ff 11fb0
Lyci Lycian: 10280-1029c
Lydi Lydian: 10920-10939 1093f
Mahj Mahajani: 11150-11176
Maka Makasar: 11ee0-11ef8
Mand Mandaic: 840-85b 85e
Mani Manichaean: 10ac0-10ae6 10aeb-10af6
Marc Marchen: 11c70-11c8f 11ca9-11cb6
Medf Medefaidrin: 16e40-16e9a
Mend Mende_Kikakui: 1e800-1e8c4 1e8c7-1e8d6
Merc Meroitic_Cursive: 109a0-109b7 109d2-109ff
Mero Meroitic_Hieroglyphs: 10980-1099f
Mlym Malayalam: d00-d0c d66-d7f
Modi: 11600-11644 11650-11659
Mong Mongolian: 1800-1801 11660-1166c
Mroo Mro: 16a40-16a5e 16a6e-16a6f
Mtei Meetei_Mayek: aae0-aaf6 abf0-abf9
Mult Multani: 11280-11286 1129f-112a9
Mymr Myanmar: 1000-109f 116d0-116e3
Nagm Nag_Mundari: 1e4d0-1e4f9
Nand Nandinagari: 119a0-119a7 119da-119e4
Narb Old_North_Arabian: 10a80-10a9f
Nbat Nabataean: 10880-1089e 108a7-108af
Newa: 11400-1145b 1145d-11461
Nkoo Nko: 7c0-7fa 7fd-7ff
Nshu Nushu: 16fe1 1b170-1b2fb
Ogam Ogham: 1680-169c
Olck Ol_Chiki: 1c50-1c7f
Onao Ol_Onal: 1e5d0-1e5fa 1e5ff
Orkh Old_Turkic: 10c00-10c48
Orya Oriya: b01-b03 b66-b77
Osge Osage: 104b0-104d3 104d8-104fb
Osma Osmanya: 10480-1049d 104a0-104a9
Ougr Old_Uyghur: 10f70-10f89
Palm Palmyrene: 10860-1087f
Pauc Pau_Cin_Hau: 11ac0-11af8
Perm Old_Permic: 10350-1037a
Phag Phags_Pa: a840-a877
Phli Inscriptional_Pahlavi: 10b60-10b72 10b78-10b7f
Phlp Psalter_Pahlavi: 10b80-10b91 10ba9-10baf
Phnx Phoenician: 10900-1091b 1091f
Plrd Miao: 16f00-16f4a 16f8f-16f9f
Prti Inscriptional_Parthian: 10b40-10b55 10b58-10b5f
Rjng Rejang: a930-a953 a95f
Rohg Hanifi_Rohingya: 10d00-10d27 10d30-10d39
Runr Runic: 16a0-16ea 16ee-16f8
Samr Samaritan: 800-82d 830-83e
Sarb Old_South_Arabian: 10a60-10a7f
Saur Saurashtra: a880-a8c5 a8ce-a8d9
Sgnw SignWriting: 1d800-1da8b 1daa1-1daaf
Shaw Shavian: 10450-1047f
Shrd Sharada: 11180-111df 11b60-11b67
Sidd Siddham: 11580-115b5 115b8-115dd
Sidt Sidetic: 10940-10959
Sind Khudawadi: 112b0-112ea 112f0-112f9
Sinh Sinhala: d81-d83 111e1-111f4
Sogd Sogdian: 10f30-10f59
Sogo Old_Sogdian: 10f00-10f27
Sora Sora_Sompeng: 110d0-110e8 110f0-110f9
Soyo Soyombo: 11a50-11aa2
Sund Sundanese: 1b80-1bbf 1cc0-1cc7
Sunu Sunuwar: 11bc0-11be1 11bf0-11bf9
Sylo Syloti_Nagri: a800-a82c
Syrc Syriac: 700-70d 860-86a
Tagb Tagbanwa: 1760-176c 1772-1773
Takr Takri: 11680-116b9 116c0-116c9
Tale Tai_Le: 1950-196d 1970-1974
Talu New_Tai_Lue: 1980-19ab 19de-19df
Taml Tamil: b85-b8a 11fff
Tang Tangut: 16fe0 18d80-18df2
Tavt Tai_Viet: aa80-aac2 aadb-aadf
Tayo Tai_Yo: 1e6c0-1e6de 1e6fe-1e6ff
Telu Telugu: c00-c0c c77-c7f
Tfng Tifinagh: 2d30-2d67 2d7f
Tglg Tagalog: 1700-1715 171f
Thaa Thaana: 780-7b1
Thai: e01-e3a e40-e5b
Tibt Tibetan: f00-f47 fd9-fda
Tirh Tirhuta: 11480-114c7 114d0-114d9
Tnsa Tangsa: 16a70-16abe 16ac0-16ac9
Todr Todhri: 105c0-105f3
Tols Tolong_Siki: 11db0-11ddb 11de0-11de9
Toto: 1e290-1e2ae
Tutg Tulu_Tigalari: 11380-11389 113e1-113e2
Ugar Ugaritic: 10380-1039d 1039f
Vaii Vai: a500-a62b
Vith Vithkuqi: 10570-1057a 105bb-105bc
Wara Warang_Citi: 118a0-118f2 118ff
Wcho Wancho: 1e2c0-1e2f9 1e2ff
Xpeo Old_Persian: 103a0-103c3 103c8-103d5
Xsux Cuneiform: 12000-12399
Yezi Yezidi: 10e80-10ea9 10eb0-10eb1
Yiii Yi: a000-a48c a490-a4c6
Zanb Zanabazar_Square: 11a00-11a47
Zinh Inherited Qaai: 300-36f e0100-e01ef
Zyyy Common: 0-40 e0020-e007f`;
const binaryProperties = `
Math: 2b 2b30-2b44 1f8d0-1f8d8
Alpha Alphabetic: 41-5a aac0 31350-33479
Lower Lowercase: 61-7a 1e6f 1e922-1e943
Upper Uppercase: 41-5a 1e64 1f170-1f189
Cased: 41-5a 2c00-2ce4 1f170-1f189
CI Case_Ignorable: 27 a7f8-a7f9 e0100-e01ef
CWL Changes_When_Lowercased: 41-5a 1e3c 1e900-1e921
CWU Changes_When_Uppercased: 61-7a 1e33 1e922-1e943
CWT Changes_When_Titlecased: 61-7a 1e35 1e922-1e943
CWCF Changes_When_Casefolded: 41-5a 1e3a 1e900-1e921
CWCM Changes_When_Casemapped: 41-5a 1f59 1e900-1e943
IDS ID_Start: 41-5a ab01-ab06 31350-33479
IDC ID_Continue: 30-39 fa70-fad9 e0100-e01ef
XIDS XID_Start: 41-5a ab20-ab26 31350-33479
XIDC XID_Continue: 30-39 fb13-fb17 e0100-e01ef
DI Default_Ignorable_Code_Point: ad 2060-206f e0000-e0fff
Gr_Ext Grapheme_Extend: 300-36f a947-a951 e0100-e01ef
Gr_Base Grapheme_Base: 20-7e 10028-1003a 31350-33479
White_Space space: 9-d 2000-200a 3000
Bidi_C Bidi_Control: 61c 202a-202e 2066-2069
Join_C Join_Control: 200c-200d
Dash: 2d 2e3a-2e3b 10ead
QMark Quotation_Mark: 22 2e42 ff62-ff63
Term Terminal_Punctuation: 21 a9c7-a9c9 1da87-1da8a
Hex Hex_Digit: 30-39 ff10-ff19 ff41-ff46
AHex ASCII_Hex_Digit: 30-39 41-46 61-66
Ideo Ideographic: 3006-3007 18d80-18df2 31350-33479
Dia Diacritic: 5e a66f 1e948-1e94a
Ext Extender: b7 aa70 1e944-1e946
NChar Noncharacter_Code_Point: fdd0-fdef 8fffe-8ffff 10fffe-10ffff
IDSB IDS_Binary_Operator: 2ff0-2ff1 2ff4-2ffd 31ef
IDST IDS_Trinary_Operator: 2ff2-2ff3
Radical: 2e80-2e99 2e9b-2ef3 2f00-2fd5
UIdeo Unified_Ideograph: 3400-4dbf fa23-fa24 31350-33479
Dep Deprecated: 149 17a3-17a4 e0001
SD Soft_Dotted: 69-6a 2c7c 1e068
LOE Logical_Order_Exception: e40-e44 19ba aabb-aabc
STerm Sentence_Terminal: 21 aa5d-aa5f 1da88
VS Variation_Selector: 180b-180d fe00-fe0f e0100-e01ef
Pat_WS Pattern_White_Space: 9-d 85 2028-2029
Pat_Syn Pattern_Syntax: 21-2f f7 fe45-fe46
RI Regional_Indicator: 1f1e6-1f1ff
Emoji: 23 274c 1fac8
EPres Emoji_Presentation: 231a-231b 1f1e6-1f1ff 1fac8
EMod Emoji_Modifier: 1f3fb-1f3ff
EBase Emoji_Modifier_Base: 261d 1f595-1f596 1fac3-1fac5
EComp Emoji_Component: 23 fe0f e0020-e007f
ExtPict Extended_Pictographic: a9 27bf 1fc00-1fffd
Bidi_M Bidi_Mirrored: 28-29 29c9 1d7c3
Any: 0-d7ff e000-10ffff
ASCII: 0-7f
Assigned: 0-377 1056f-1057a 100000-10fffd`;

function named(table) {
  return table.trim().split("\n").map((line) => {
    const [names, runs] = line.split(": ");
    const ends = runs.split(" ").flatMap((run) => {
      const [low, high = low] = run.split("-").map((code) => parseInt(code, 16));
      return [low - 1, low, high, high + 1];
    });
    return [names.split(" "), [...new Set(ends)].filter((code) => code >= 0 && code <= 0x10ffff).map(at)];
  });
}
for (const [names, texts] of named(generalCategories)) {
  add(`^\\p{gc=${names[0]}}$`, texts);
  add(`^\\P{General_Category=${names[1]}}$`, texts.concat(""));
  for (const name of names.slice(1)) add(`^\\p{${name}}$`, texts.concat("ab"));
}
const shared = ["a", "\u00b7", "\u0301", "\u0640", "\u064b", "\u0951", "\u0964", "\u1cd0", "\u3001", "\u30fc", "\u{10102}", "\u{102e0}"];
for (const [names, texts] of named(scripts)) {
  add(`^\\p{sc=${names[0]}}$`, texts);
  add(`^[\\P{Script_Extensions=${names.at(-1)}}]$`, texts.concat(shared));
}
for (const [names, texts] of named(binaryProperties)) {
  for (const name of names) add(`^\\p{${name}}$`, texts);
  add(`^\\P{${names[0]}}$`, texts.concat("", "ab"));
  add(`^[\\p{${names.at(-1)}}\\n]{2}$`, texts.map((text) => text + "\n"));
}
for (const short of ["Arab", "Beng", "Cyrl", "Deva", "Grek", "Hani", "Hira", "Kana", "Latn", "Thai", "Zinh", "Zyyy"]) {
  const [names, texts] = named(scripts).find(([known]) => known[0] === short);
  add(`^\\P{Script=${names.at(-1)}}$`, texts.concat(shared));
  add(`^\\p{scx=${short}}$`, texts.concat(shared));
  add(`^[\\p{sc=${short}}\\s]+$`, texts.concat(texts[1] + " " + texts[2]));
  add(`^[^\\p{scx=${names.at(-1)}}a-z]$`, texts.concat(shared));
}
for (const [pattern, texts] of [
  ["^\\p{Script=Greek}+$", ["\u03b1\u03b2", "\u03b1b", "\u1f00", ""]],
  ["^[\\p{sc=Latn}\\p{sc=Grek}\\p{Nd}_-]+$", ["a\u03b11_-", "\u0430", "\u0661"]],
  ["^[^\\p{L}\\P{ASCII}]+$", ["12 -", "a", "\u00b5", "\u00a0"]],
  ["^[\\p{Lu}-]+$", ["A-B", "a"]],
  ["^\\p{Emoji_Presentation}{1,2}?$", ["\u{1f600}", "\u{1f600}\u{1f600}\u{1f600}", "1", "\u00a9"]],
  ["^\\p{RI}\\p{RI}$", ["\u{1f1e6}\u{1f1ff}", "\u{1f1e6}", "AZ"]],
  ["^\\p{ID_Start}\\p{ID_Continue}*$", ["a1", "1a", "\u00e9_", "_a", "\u4e2d\u0301"]],
  ["^(?:\\p{Uppercase}\\p{Lowercase}+|\\p{White_Space})*$", ["Ab Cd", "\u00c9\u00e9\u2003", "ab", ""]],
  ["^\\P{Alphabetic}?$", ["", "1", "a", "\u{1f600}"]],
  ["\\p{sc=Hani}\\p{sc=Hira}|\\p{sc=Kana}", ["\u4e2d\u3042", "\u30a2", "\u4e2d", "\u30fc"]],
  ["^[\\u{41}\\p{gc=Nd}\\]\\-]+$", ["A1]-", "B", "\u0661"]],
]) add(pattern, texts);
for (const name of ["greek", "Greek", "Script=greek", "script=Greek", "SC=Grek", "sc=GREK", "sc=grek", "sc=", "sc", "=Grek", "sc==Grek", "sc=Grek=", "sc=gc=L", "sc=Lu", "gc=Grek", "scx=", "scx=L", "gc=", "gc=l", "gc=lu", "General_Category", "general_category=L", "GeneralCategory=L", "Script_Extensions", "sc:Grek", "sc!=Grek", "sc=Old Italic", "sc=OldItalic", "sc=Old-Italic", " L", "L ", "gc =L", "gc= L", "^L", "!L", "IsGreek", "InGreek", "IsL", "uppercase", "UPPERCASE", "Alpha=Y", "Alphabetic=True", "alphabetic", "WhiteSpace", "WHITE_SPACE", "Other_Math", "OAlpha", "Hyphen", "Gr_Link", "IDS_Unary_Operator", "ID_Compat_Math_Start", "gc=Any", "gc=ASCII", "any", "ascii", "assigned", "sc=Any", "Age=6.0", "age=6.0", "Block=Greek", "blk=Greek", "GCB=CR", "ccc=0", "nv=1", "sc=Hrkt", "sc=Hans", "sc=Jpan", "RGI_Emoji", "Basic_Emoji"]) others(`\\p{${name}}`, "a");
for (const name of ["Cs", "Surrogate", "gc=Cs", "General_Category=Surrogate", "sc=Zzzz", "sc=Unknown", "scx=Zzzz", "Script_Extensions=Unknown", "CWKCF", "Changes_When_NFKC_Casefolded", "WSpace"]) {
  others(`\\p{${name}}`, "a");
  others(`[^\\P{${name}}]`, "a");
}
for (const pattern of ["\\p{sc=Grek", "\\p{sc=Grek]", "\\p{Alpha", "\\psc=Grek", "\\p{{L}}", "[\\p{sc=Grek}-z]", "[a-\\p{Alpha}]", "\\p{sc=Grek}\\-", "\\p{Alpha}]", "\\p{Alpha}{,2}", "[\\p{Any}-\\p{Any}]"]) others(pattern, "a");

for (const code of [0, 9, 0x24, 0x5d, 0x7f, 0x80, 0x7ff, 0x800, 0x2028, 0xd7ff, 0xe000, 0xffff, 0x10000, 0x1f600, 0x10ffff]) {
  const written = `\\u{${hex(code, code % 2 ? 1 : 6)}}`;
  add(`^${written}$`, [...around(code), "u", ""]);
  add(`^[${written}]{2}$`, [...around(code), at(code).repeat(2), at(code).repeat(3)]);
  add(`^[^${written}]$`, [...around(code), "u", ""]);
  add(`^[${written}-\\u{10FFFF}]$`, [...around(code), "\u{10ffff}"]);
}
for (const [inside, texts] of [["a\\b", ["a", "\b", "b", "\\"]], ["\\b\\t", ["\b", "\t", "t"]], ["\\x00-\\b", ["\0", "\x07", "\b", "\t"]], ["\\b-\\x20", ["\x07", "\b", " ", "!"]], ["^\\b\\s", ["\b", " ", "a"]], ["\\w\\b", ["\b", "b", "-"]]]) {
  add(`^[${inside}]$`, texts);
  add(`^[${inside}]+$`, texts.concat(texts[0] + texts[1]));
}

// ---- what has a meaning here and isn't plain

for (const pattern of ["\\p{L}]", "\\p{L}}", "\\p{L}{", "{\\p{L}", "\\p{L}{,2}", "[\\p{L}-z]", "[a-\\p{L}]", "[\\w-.\\p{L}]", "\\p{L}\\-", "\\p{L}\\_", "\\p{L}\\ ", "\\p{L}\\\u00e9", "\\u{61}\\@", "\\u{61}]", "\\p{L}\\a"]) others(pattern, "a");
for (const pattern of ["\\p", "\\P", "\\pL", "\\p{}", "\\p{", "\\p{L", "\\p{l}", "\\p{LU}", "\\p{Lx}", "\\p{Lull}", "\\p{ L}", "\\p{IsL}", "\\p{Cs}", "\\p{Latin}", "[\\p]", "[\\p{}]", "\\u{}", "\\u{", "\\u{4", "\\u{g}", "\\u{110000}", "\\u{FFFFFFFFFFFFFFFFFFFF}", "\\u{D83D}", "\\u{DFFF}", "\\u{D83D}\\u{DE00}", "[\\u{D800}-\\u{DFFF}]", "(?=\\p{L})a"]) others(pattern, "a");

others("(?=a)a", "a");
others("(?!a)b", "b");
others("(?<=a)b", "ab");
others("(?<!a)b", "b");
for (const pattern of ["(?=a)b", "(?!\\s*$).+", "a(?=b)", "a(?!b)$", "^a(?=b)b$", "^a|(?=b)b", "^(?=a)a|b", "a|^(?=b)b", "^(?=a)|b", "a|b(?<=b)$", "^(?=a)b|c(?<=c)$", "^a(?<=a)", "^a(?<=a)b$", "^(?<=a)b", "^(?<!a)b$", "(?:^(?=a)a)$", "(^(?!a).*)$", "^((?=a)a)$", "^((?!a).)*$", "^(?:(?!a).)+$", "^.(?:a(?<=a))$", "^(.*(?<!a))$", "^(?=a(?=b))", "^(?=(?!a)b)", "^(?!(?:(?=a)a))", "^(?=a(?<=a))", "a(?<=a(?!b))$", "a(?<=(?<!b)a)$", "^(?!a)*", "^(?=a)+a", "^(?=a)?a", "^(?!a){2}", "^a(?<=a)*$", "^^(?=a)a", "\\b(?=a)a", "^\\b(?=a)a", "^a(?<=a)$$", "^(?=[|])a|$", "^a(?<=a)\\$", "^a(?<=a)\\b$", "^(?=(a))\\1", "^(?=\\p{L})\\-", "^(?=a)(?i)b"]) others(pattern, "a", "b");
for (const pattern of ["^(?=a", "^(?=a))", "^(?!", "^(?", "a(?<=a$", "a(?<=a))$", "a(?<!$", "^(?<a", "^(?=[b-a])", "a(?<=a{2,1})$", "^(?=*)", "a(?<=+)$"]) add(pattern, ["a"]);
others("(a)\\1", "aa");
others("\\1(a)", "a");
others("\\8", "8");
others("(?<n>a)", "a");
others("(?<n>a)\\k<n>", "aa");
others("\\A", "A");
others("\\Z", "Z");
others("\\z", "z");
others("\\a", "a");
others("\\e", "e");
others("\\k", "k");
others("\\x", "x");
others("\\x4", "x4");
others("\\xg1", "xg1");
others("\\u", "u");
others("\\u004", "u004");
others("\\u00g1", "u00g1");
others("\\c", "\\c");
others("\\c1", "\\c1");
others("[\\c]", "c");
others("[\\c1]", "1");
others("[\\B]", "B");
others("\\00", "\0");
others("\\01", "\x01");
others("[\\1]", "\x01");
others("\\uD83D", "a");
others("\\uDE00", "a");
others("\\uD83Da", "a");
others("\\uD83D\\u0041", "A");
others("\\uD83D\\uD83D", "a");
others("\\uDE00\\uD83D", "a");
others("[\\uD800-\\uDFFF]", "a");
others("[^\\uD800]", "a");
others("(?i:a)", "A");
others("(?=a)*", "a");
add("\\", [""]);
add("a\\", ["a"]);
add("(?i)a", ["a"]);
add("(?s).*", ["a"]);
add("(?P<n>a)", ["a"]);
add("(?#a)", ["a"]);
add("(?>a)", ["a"]);

// ---- patterns by chance, from a fixed seed

let state = 20240229;
function pick(list) {
  state = (Math.imul(state, 1664525) + 1013904223) >>> 0;
  return list[(state >>> 8) % list.length];
}
const letters = ["a", "b", "-", "1", "_", " ", "\n", "\u00e9", "]", "{", "}", ",", "\u2028"];
const atoms = ["a", "b", "1", "_", " ", "-", "\u00e9", "\\s", "\\S", "\\d", "\\D", "\\w", "\\W", ".", "\\n", "\\x61", "\\u00e9", "\\-", "]", "}", "{", "[ab]", "[^a]", "[\\w-]", "[\\s-a]", "[^\\d\\s]", "[1-\\w]", "[a-b\\n]", "[]", "[^]", "[\\W_]", "[{}\\]]"];
function term(depth) {
  const kind = pick([0, 1, 2, 3, 4, 5, 6, 7, 8, 9]);
  if (kind === 0) return pick(["\\b", "\\B", "^", "$"]);
  const item = kind < 3 && depth > 0 ? pick(["(?:", "("]) + branches(depth - 1) + ")" : pick(atoms);
  return item + pick(["", "", "", "*", "+", "?", "*?", "+?", "??", "{2}", "{1,2}?", "{,1}", "{0,1}"]);
}
function branches(depth) {
  let text = "";
  for (let n = pick([1, 1, 2, 3]); n > 0; n--) text += term(depth);
  return pick([0, 0, 0, 1]) ? `${text}|${branches(depth)}` : text;
}
for (let n = 0; n < 220; n++) {
  const pattern = pick(["^", ""]) + branches(2) + pick(["$", "$", ""]);
  const texts = [""];
  for (let m = 0; m < 6; m++) {
    let text = "";
    for (let k = pick([1, 1, 2, 2, 3, 4]); k > 0; k--) text += pick(letters);
    texts.push(text);
  }
  add(pattern, texts);
}

function look(sign) {
  return `(?${sign}${branches(1)})`;
}
function looks(signs) {
  let text = "";
  for (let n = pick([0, 0, 1, 1, 2]); n > 0; n--) text += look(pick(signs));
  return text;
}
for (let n = 0; n < 80; n++) {
  let body = "";
  for (let m = pick([0, 1, 2]); m > 0; m--) body += term(1);
  const pattern = `^${looks(["=", "!"])}${body}${looks(["<=", "<!"])}$`;
  const texts = [""];
  for (let m = 0; m < 8; m++) {
    let text = "";
    for (let k = pick([1, 1, 2, 2, 3]); k > 0; k--) text += pick(letters);
    texts.push(text);
  }
  add(pattern, texts);
}

const answers = process.argv.includes("--answers");
for (const [words, told] of rows) console.log(`pattern ${words}` + (answers ? ` => ${told}` : ""));
