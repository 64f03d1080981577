// Says what a TextMate grammar makes of a text: for each line a list of its parts, as JSON: where a part begins and
// ends, and its scope. checks/installed runs it.
//
//     node checks/textmate.js GRAMMAR TEXT
//
// It knows match, begin with end, and include, which is what the grammar of this repository has.
"use strict";
const fs = require("fs");

const [grammar, text] = [JSON.parse(fs.readFileSync(process.argv[2])), fs.readFileSync(process.argv[3], "latin1")];

// A regular expression of a grammar. Those of node have no (?i).
function compiled(source) {
  return source.startsWith("(?i)") ? new RegExp(source.slice(4), "gi") : new RegExp(source, "g");
}

function rulesOf(patterns) {
  return patterns.map((it) => (it.include ? grammar.repository[it.include.slice(1)] : it)).map((it) => ({
    name: it.name,
    start: compiled(it.begin || it.match),
    end: it.end && compiled(it.end),
    inner: it.end && rulesOf(it.patterns || []),
  }));
}

// Where an expression matches first from a place on.
function found(expression, line, at) {
  expression.lastIndex = at;
  return expression.exec(line);
}

const outer = rulesOf(grammar.patterns);
let open = null;
for (const line of text.split("\n").map((it) => `${it}\n`)) {
  const parts = [];
  let at = 0;
  while (at < line.length) {
    const rules = open ? [{ start: open.end, closes: true }, ...open.inner] : outer;
    const matches = rules.map((rule) => ({ rule, match: found(rule.start, line, at) })).filter((it) => it.match);
    const first = matches.reduce((one, it) => (one && one.match.index <= it.match.index ? one : it), null);
    const [begin, end] = first
      ? [first.match.index, first.match.index + first.match[0].length]
      : [line.length, line.length];
    if (open && at < begin) parts.push([at, begin, open.name]);
    if (first && begin < end) parts.push([begin, end, first.rule.name || open.name]);
    if (first && first.rule.closes) open = null;
    else if (first && first.rule.end) open = first.rule;
    at = end;
  }
  console.log(JSON.stringify(parts));
}
