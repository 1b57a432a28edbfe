// The editor: colours, words offered and explained, and each fault at its place.
import { $, ask, element } from "./line.js";

let editor, words = [], end = null, hovering, whenJudged;
const HEAD = /^(\s*(?:\/\/[^\n]*\n\s*)*cql\s*\()((?:"[^"]*"|[^")])*)(?=\))/;

export const text = () => editor.getValue();
export const hasEditor = () => !!editor;

export function edit(known, start, judged) {
  [words, whenJudged] = [known, judged];
  defineQuery(words.map(w => w.word));
  editor = CodeMirror.fromTextArea($("query"), {
    mode: "cql", theme: "desk", lineWrapping: true, viewportMargin: Infinity, matchBrackets: true, autoCloseBrackets: "()[]{}",
    screenReaderLabel: "Query",
    extraKeys: { "Ctrl-Enter": start, "Cmd-Enter": start, "Ctrl-Space": complete, Tab: false, "Shift-Tab": false },
    lint: { getAnnotations: judge, async: true, delay: 200, tooltips: false },
  });
  editor.on("inputRead", (_, change) => { if (/^[a-z]$/.test(change.text[0]) && /[a-z]{2}$/.test(before())) complete(); });
  editor.on("change", () => {
    sessionStorage.setItem("query", text());
    const head = text().match(HEAD);
    $("variations").checked = !!head && /\bvariations\b/.test(head[2].replace(/"[^"]*"/g, ""));
  });
  editor.getWrapperElement().addEventListener("mousemove", event => {
    clearTimeout(hovering);
    hovering = setTimeout(hover, 150, event.clientX, event.clientY);
  });
  editor.on("cursorActivity", () => explainWord(editor.getCursor()));
  $("variations").onchange = () => vary($("variations").checked);
  editor.setValue(sessionStorage.getItem("query") || "cql() ");
  editor.setCursor(editor.lineCount(), 0);
  editor.focus();
}

const before = () => editor.getRange({ line: editor.getCursor().line, ch: 0 }, editor.getCursor());

export function take(query) {
  editor.setValue(query);
  editor.setCursor(editor.lineCount(), 0);
  editor.focus();
  if (innerWidth < 992) scrollTo({ top: 0 });
}

// Puts words at the cursor, with a space before them where one is wanted.
export function insert(more) {
  editor.replaceSelection((/[^\s({]$/.test(before()) ? " " : "") + more + " ");
  editor.focus();
}

export const check = () => editor.performLint();

// The word `variations` comes into the query's head, or goes.
function vary(wanted) {
  const head = text().match(HEAD);
  if (!head) return;
  const rest = head[2].replace(/("[^"]*")|\bvariations\b\s*/g, (all, quoted) => quoted || "").trim();
  editor.setValue(head[1] + [wanted ? "variations" : "", rest].filter(Boolean).join(" ") + text().slice(head[0].length));
}

function hover(x, y) { explainWord(editor.coordsChar({ left: x, top: y }, "window")); }

// What the word at a place means, in a line below.
function explainWord(place) {
  const word = words.find(w => w.word === editor.getTokenAt({ line: place.line, ch: place.ch + 1 }).string)
    || words.find(w => w.word === editor.getTokenAt(place).string);
  $("meaning").textContent = word ? `${word.word}: ${word.means}${word.example ? ` · ${word.example}` : ""}` : "";
}

function complete() {
  const hint = () => {
    const to = editor.getCursor(), begun = before().match(/[a-z0-9]*$/)[0], from = { line: to.line, ch: to.ch - begun.length };
    const list = words.filter(w => w.word.startsWith(begun)).map(w => ({
      text: w.word,
      render: place => place.append(element("b", {}, w.word), " ", element("span", {}, w.means)),
    }));
    return { list: list.length === 1 && list[0].text === begun ? [] : list, from, to };
  };
  editor.showHint({ hint, completeSingle: false });
}

// Where a byte of the query's text stands in the editor.
function placeOf(query, byte) {
  return editor.posFromIndex(new TextDecoder().decode(new TextEncoder().encode(query).slice(0, byte)).length);
}

let troubled = null; // the query that stood when something else went wrong

// Has the query checked; the fault is underlined from its byte to the end of its word, or a sign stands where the query ends too soon.
async function judge(query, update) {
  let found;
  try { found = await ask("check", { query }); } catch (refusal) { say(refusal.message, "bad"); return update([]); }
  if (query !== text()) return;
  whenJudged();
  if (end) end.clear();
  end = null;
  const fault = found.fault;
  if (!fault && query === troubled) return update(found.warnings.map(w => spot(query, w, "warning")));
  if (/^\s*(cql\s*\(\s*\)\s*)?$/.test(query)) {
    say("Write what must stand on the board, or take a query from the cookbook");
    return update([]);
  }
  if (!fault && found.warnings.length) say(`Ready to run · ${found.warnings.map(w => w.reason).join(" · ")}`, "good");
  else if (!fault) say("Ready to run", "good");
  if (!fault) return update(found.warnings.map(w => spot(query, w, "warning")));
  const place = placeOf(query, fault.byte);
  if (fault.reason === "unexpected end") end = editor.setBookmark(place, { widget: element("span", { className: "end", textContent: "…" }) });
  say(`${sentence(fault.reason)}${fault.hint ? ` · ${fault.hint.replaceAll("`", "")}` : ""} · line ${fault.line}, byte ${fault.byte}`, "bad");
  update([spot(query, fault, "error")]);
}

function spot(query, fault, severity) {
  const from = placeOf(query, fault.byte), token = editor.getTokenAt({ line: from.line, ch: from.ch + 1 });
  return { from, to: { line: from.line, ch: Math.max(token.end, from.ch + 1) }, message: fault.reason, severity };
}

function sentence(reason) {
  const kind = reason.match(/^kind mismatch, wanted (\w+), found (\w+)/);
  if (kind) return `A ${kind[1]} is wanted here, and this is a ${kind[2]}`;
  const name = reason.match(/^(outside profile|unknown name) (.*)/);
  if (name && name[1] === "unknown name") return `“${name[2]}” is no word of the language`;
  if (name) return `“${name[2]}” is a word of CQL 6 that is not in this profile`;
  if (reason === "unexpected end") return "The query is not complete";
  return reason[0].toUpperCase() + reason.slice(1);
}

export function say(words, kind = "") {
  $("fault").textContent = words;
  $("fault").className = kind;
}

// Says what went wrong with something else than the query. That the same query has no fault does not hide it.
export function complain(words) {
  troubled = text();
  say(words, "bad");
}

// What went wrong is over: something is tried anew.
export function settle() {
  if (troubled === text()) say("Ready to run", "good");
  troubled = null;
}
