"use strict";
// Every text of a document or of a visitor is put into the page as text, and never as markup. Addresses are relative, so that the page can
// be below a path of its host. The address of the page has the search and, behind it, the file that is open.

const at = (id) => document.getElementById(id);
const pattern = at("pattern"), context = at("context"), results = at("results"), status = at("status"), fault = at("fault");
const fields = { name: at("name"), not: at("not"), revision: at("revision"), before: at("before") };
const options = { i: at("ignore-case"), w: at("word"), F: at("literal") };
const visitor = Array.from(crypto.getRandomValues(new Uint8Array(16)), (byte) => byte.toString(16).padStart(2, "0")).join("");
// Fewer letters are searched for at Enter alone: they find too much to be of use.
const LEAST = 3;
// In milliseconds: when a search is made again that a program did not answer since it starts again; and after what silence all lines are
// counted.
const AGAIN = 500, SILENCE = 400;
// So many of those for which the others did not wait are asked by themselves.
const MOST_LATE = 8;
// Lines of a file: how many are asked for at a time, how many of them before one that is jumped to, how many are shown at most, and how near
// to the last one that is shown more are asked for.
const WINDOW = 2000, BEFORE = 500, MOST_ROWS = 6000, NEAR = "800px 0px";
// The words of an address that say which file is open.
const OF_FILE = ["of", "file", "commit", "life", "version", "lines"];
// Letters that turn the order of others around.
const TURNING = /[\u061c\u200e\u200f\u202a-\u202e\u2066-\u2069]/;

let running = null, turn = 0, searched = "", served = [], shownFile = null, counting = 0, viewed = 0;
// What the server has said of the file that is open; null if it has none.
let shownState = null;
// Repositories that the address of the page names and that are not served: the answer says so, until something else is asked for.
let strange = [];
// Of the answer that is shown: the hits of each file of a state, and the lines of each repository.
let found = new Map(), heads = new Map();
// What is shown of the file that is open: the words that ask for it, and from which line to which, of how many.
let part = null;

function element(tag, className, text) {
  const made = document.createElement(tag);
  if (className) made.className = className;
  if (text !== undefined) write(made, text);
  return made;
}

// Puts a text into an element, in which what would turn others around is shown and does nothing.
function write(into, text) {
  if (!TURNING.test(text)) return into.append(text);
  for (const part of text.split(/([\u061c\u200e\u200f\u202a-\u202e\u2066-\u2069])/)) {
    if (!TURNING.test(part)) into.append(part);
    else {
      const shown = document.createElement("span");
      shown.className = "turning";
      shown.textContent = `U+${part.codePointAt(0).toString(16).toUpperCase().padStart(4, "0")}`;
      into.append(shown);
    }
  }
}

const counted = (number, what) => `${number.toLocaleString("en")} ${what}${number === 1 ? "" : "s"}`;

function chosen() {
  return [...document.querySelectorAll("#repositories input:checked")].map((box) => box.value).concat(strange);
}

// The repository that is searched, if it is one.
function single() {
  const names = chosen();
  return served.find((one) => (served.length === 1 || (names.length === 1 && names[0] === one.repository)));
}

function wordsOf() {
  const words = new URLSearchParams();
  words.set("q", pattern.value);
  for (const [word, field] of Object.entries(fields)) if (field.value) words.set(word, field.value);
  words.set("context", context.value);
  for (const [word, box] of Object.entries(options)) if (box.checked) words.set(word, "1");
  for (const repository of chosen()) words.append("repository", repository);
  return words;
}

// The address of the search, with a file.
function addressOf(file) {
  const words = pattern.value ? wordsOf() : new URLSearchParams();
  if (file) for (const word of OF_FILE) if (file[word]) words.set(word, file[word]);
  return [...words].length ? `?${words}` : location.pathname;
}

const fileOf = (words) => (words.get("file") ? Object.fromEntries(OF_FILE.map((word) => [word, words.get(word) || ""])) : null);

function show(text) {
  status.textContent = text;
}

function clear() {
  results.replaceChildren();
  results.classList.remove("stale");
  found = new Map();
  heads = new Map();
}

function complain(told) {
  if (told.offset === undefined) {
    fault.hidden = true;
    show(`The search is given up: ${told.refused}${slowness(told)}.`);
    return;
  }
  const field = fields[told.in];
  const bytes = new TextEncoder().encode(pattern.value).slice(0, told.offset);
  const before = new TextDecoder().decode(bytes).length;
  const place = { name: "in", not: "not in", host: "the filter of this host" }[told.in];
  fault.textContent = place ? `${place}: ${told.refused} at ${told.offset}` : `${" ".repeat(before)}^ ${told.refused}`;
  (field || pattern).setAttribute("aria-invalid", "true");
  fault.hidden = false;
  show("");
}

const slowness = (told) => (told.milliseconds ? ` after ${told.milliseconds} ms; try a narrower one` : "");

// Results.

function partsInto(into, parts) {
  parts.forEach((part, index) => (index % 2 ? into.append(element("mark", "", part)) : write(into, part)));
}

function rowOf(hit, file, label) {
  const row = element("a", hit.around ? "row around" : "row");
  row.href = addressOf(file);
  if (hit.sign) row.append(element("span", "number", hit.before ? String(hit.before) : ""));
  row.append(element("span", "number", label));
  if (hit.sign) row.append(element("span", "sign", hit.sign));
  const text = element("span", "text");
  partsInto(text, hit.parts);
  row.append(text);
  row.addEventListener("click", (event) => {
    if (event.button || event.ctrlKey || event.metaKey || event.shiftKey || event.altKey) return;
    event.preventDefault();
    open(file, row);
  });
  return row;
}

function sectionOf(title, count) {
  const section = element("section"), head = element("h3");
  head.append(element("span", "name", title), element("span", "count", count));
  section.append(head);
  return section;
}

// By which the hits of a file are found: its repository, its id, and the commit or the version.
const keyOf = (file) => `${file.of}/${file.file}@${file.commit || file.version}`;

function addDocument(document) {
  const head = heads.get(document.repository);
  found.set(keyOf({ of: document.repository, file: document.id, commit: head.commit, version: head.version }), document.hits);
  const section = sectionOf(document.name, counted(document.hits.filter((hit) => !hit.around).length, "line"));
  let last = 0;
  for (const hit of document.hits) {
    if (last && hit.line !== last + 1) section.append(element("div", "gap"));
    last = hit.line;
    const place = head.commit ? { commit: head.commit } : { life: head.life, version: head.version };
    section.append(rowOf(hit, { of: document.repository, file: document.id, lines: hit.line, ...place }, String(hit.line)));
  }
  head.group.append(section);
}

// The place of a repository in the results, with what is said of it.
function addHead(told, several, group = element("div", "group")) {
  const head = { ...told, group, told: element("span", "count") };
  heads.set(told.repository, head);
  if (several && (told.lines || told.fault)) {
    const title = element("h2");
    title.append(element("span", "repository", told.repository));
    if (told.revision) title.append(element("span", "revision", told.revision));
    title.append(head.told);
    if (told.more) {
      const more = element("button", "only", "only this");
      more.type = "button";
      more.setAttribute("aria-label", `Search only ${told.repository}`);
      more.addEventListener("click", () => chooseOnly(told.repository));
      title.append(more);
    }
    group.append(title);
  }
  head.told.textContent = told.fault ? "" : told.more ? `the first ${counted(told.lines, "line")}` : counted(told.lines, "line");
  const fault = told.alone ? "takes longer than the others, and is asked by itself" : `gives no answer: ${told.fault}${slowness(told)}`;
  if (told.fault) group.append(element("p", "missing", `${told.repository} ${fault}.`));
  if (!group.parentNode) results.append(group);
}

function chooseOnly(repository) {
  for (const box of document.querySelectorAll("#repositories input")) box.checked = box.value === repository;
  showRevisions();
  search();
}

function addReviewed(told, head) {
  const side = told.after || told.before;
  const title = told.before && told.after && told.before.name !== told.after.name ? `${told.before.name} → ${told.after.name}` : side.name;
  const signs = ["-", "+", " "].map((sign) => told.hits.filter((hit) => hit.sign === sign).length);
  const section = sectionOf(title, `−${signs[0]} +${signs[1]}, ${signs[2]} left${told.coarse ? ", compared coarsely: it takes too long" : ""}`);
  for (const place of ["before", "after"]) {
    const hits = told.hits.filter((hit) => hit[place]).map((hit) => ({ ...hit, line: hit[place] }));
    if (hits.length) found.set(keyOf({ of: head.repository, file: told[place].id, commit: head[place] }), hits);
  }
  for (const hit of told.hits) {
    const own = hit.sign === "-" ? { file: told.before.id, commit: head.before, lines: hit.before } : { file: told.after.id, commit: head.after, lines: hit.after };
    const row = rowOf(hit, { of: head.repository, ...own }, hit.after ? String(hit.after) : "");
    row.classList.add({ "-": "removed", "+": "added", " ": "left" }[hit.sign]);
    section.append(row);
  }
  results.append(section);
}

async function* linesOf(response) {
  const reader = response.body.pipeThrough(new TextDecoderStream()).getReader();
  let rest = "";
  for (;;) {
    const { value, done } = await reader.read();
    if (done) return;
    const lines = (rest + value).split("\n");
    rest = lines.pop();
    for (const line of lines) yield JSON.parse(line);
  }
}

async function search() {
  if (running) running.abort();
  clearTimeout(counting);
  const words = wordsOf();
  searched = String(words);
  history.replaceState(null, "", addressOf(shownFile));
  document.body.dataset.done = "";
  if (!words.get("q")) {
    running = null;
    fault.hidden = true;
    clear();
    return showLoaded();
  }
  const own = (running = new AbortController());
  for (const field of [pattern, ...Object.values(fields)]) field.removeAttribute("aria-invalid");
  results.classList.add("stale");
  try {
    await (isReview() ? searchReview(words, own) : searchAll(words, own));
    document.body.dataset.done = words.get("q");
  } catch (error) {
    if (own.signal.aborted) return;
    clear();
    show("The server does not answer.");
  }
}

async function* answerOf(path, words, own) {
  const sent = new URLSearchParams(words);
  sent.set("visitor", visitor);
  sent.set("turn", String(++turn));
  let isFirst = true;
  for await (const told of linesOf(await fetch(`${path}?${sent}`, { signal: own.signal }))) {
    if (own.signal.aborted) return;
    if (isFirst) {
      clear();
      results.scrollTop = 0;
      isFirst = false;
    }
    if (!told.refused) yield told;
    else {
      complain(told);
      if (told.again) again(own);
    }
  }
}

function again(own) {
  setTimeout(() => { if (running === own) search(); }, AGAIN);
}

async function searchAll(words, own) {
  const late = [];
  let total = null, isAgain = false;
  for await (const told of answerOf("api/find", words, own)) {
    if (told.hits) addDocument(told);
    else if (told.repository !== undefined) {
      addHead(told, served.length > 1);
      isAgain ||= Boolean(told.again);
      if (told.alone) late.push(told.repository);
    } else total = told;
  }
  if (!total) return;
  fault.hidden = true;
  showTotal(total);
  markFile();
  if (isAgain) again(own);
  else searchLate(words, own, total, late.slice(0, MOST_LATE)).catch(() => {});
  if (total.more) counting = setTimeout(() => count(words, own, total), SILENCE);
}

// Asks those by themselves for which the others did not wait, one after the other, and shows what they answer in their places.
async function searchLate(words, own, total, names) {
  for (const name of names) {
    const sent = new URLSearchParams(words), { group } = heads.get(name);
    sent.set("repository", name);
    sent.set("visitor", visitor);
    sent.set("turn", String(++turn));
    for await (const told of linesOf(await fetch(`api/find?${sent}`, { signal: own.signal }))) {
      if (own.signal.aborted || running !== own) return;
      if (told.hits) addDocument(told);
      else if (told.repository === undefined && !told.refused) {
        total.lines += told.lines;
        total.more ||= told.more;
        total.missing = total.missing.filter((one) => one !== name);
      } else {
        group.replaceChildren();
        addHead({ ...told, repository: name, fault: told.refused || told.fault, alone: false }, true, group);
      }
    }
    showTotal(total);
    markFile();
  }
}

function showTotal(total) {
  const files = counted(results.querySelectorAll("section").length, "file");
  const missing = total.missing && total.missing.length ? ` No answer from ${total.missing.join(", ")}.` : "";
  const first = total.all ? `the first ${total.lines.toLocaleString("en")} of ${counted(total.all, "line")}` : `the first ${counted(total.lines, "line")}`;
  const lines = `${total.more ? first : counted(total.lines, "line")} in ${files}${total.more && !total.all ? ", and there are more" : ""}`;
  show((total.lines ? `${lines}, in ${Math.round(total.seconds * 1000)} ms.` : "No line matches.") + missing);
}

// Tells how many lines there are in all, once nothing is typed.
async function count(words, own, total) {
  try {
    const told = await (await fetch(`api/count?${words}`, { signal: own.signal })).json();
    if (running !== own || !told.counts) return;
    let all = 0;
    for (const [repository, lines] of Object.entries(told.counts)) {
      const head = heads.get(repository);
      all += lines;
      if (head && head.more) head.told.textContent = `${head.lines.toLocaleString("en")} of ${counted(lines, "line")}`;
    }
    showTotal({ ...total, all });
  } catch (error) {
    // it is asked again with the next search
  }
}

const isReview = () => Boolean(fields.before.value && single() && single().revisions.length);

async function searchReview(words, own) {
  const sent = new URLSearchParams(words);
  sent.set("repository", single().repository);
  sent.set("after", fields.revision.value || single().revisions[0].name);
  let head = null, total = null, files = 0;
  for await (const told of answerOf("api/review", sent, own)) {
    if (told.hits) {
      addReviewed(told, head);
      files++;
    } else if (told.repository !== undefined) head = told;
    else total = told;
  }
  if (!total) return;
  fault.hidden = true;
  markFile();
  show(`${total.removed} removed, ${total.added} added, ${total.left} left, in ${counted(files, "file")} of the patch${total.more ? ", and there are more" : ""}.`);
}

// Files.

function open(file, row) {
  shownFile = file;
  history.pushState(null, "", addressOf(file));
  document.querySelectorAll(".row.shown").forEach((other) => other.classList.remove("shown"));
  if (row) row.classList.add("shown");
  return view(file);
}

const rangeOf = (file) => {
  const [first, last] = String(file.lines || "").split("-").map(Number);
  return first > 0 ? [first, Math.max(last || first, first)] : [0, 0];
};

// Some lines of a file. The answer may have fewer than are asked for, and at least one.
async function windowOf(words, id, from, to) {
  const asked = new URLSearchParams(words);
  asked.set("from", from);
  asked.set("to", to);
  try {
    return await (await fetch(`api/file?${asked}&name=${id}`)).json();
  } catch (error) {
    return { refused: "The server does not answer" };
  }
}

const lastOf = (told) => told.from + told.lines.length - 1;

async function view(file, isWhole = false) {
  const own = ++viewed, words = new URLSearchParams();
  words.set("repository", file.of);
  for (const word of ["commit", "life", "version"]) if (file[word]) words.set(word, file[word]);
  // the file as it is, where it is no longer known as it was
  words.set("now", "1");
  if (isWhole) words.set("whole", "1");
  const wanted = rangeOf(file)[0] || 1, from = Math.max(1, wanted - BEFORE);
  let told = await windowOf(words, file.file, from, from + WINDOW - 1);
  // one that is behind the end, or behind long lines
  const again = told.refused || wanted <= lastOf(told) ? 0 : Math.min(wanted, told.of);
  if (again && again > lastOf(told)) told = await windowOf(words, file.file, again, again + WINDOW - 1);
  if (own !== viewed) return;
  const lines = at("file-lines"), name = at("file-name");
  name.replaceChildren();
  write(name, told.refused ? `${file.of}: ${file.file}` : `${file.of}/${told.name}`);
  if (told.commit) name.append(" ", element("span", "revision", told.commit.slice(0, 12)));
  at("file").hidden = false;
  shownState = told.refused ? null : told;
  at("file-jump").hidden = Boolean(told.refused) || told.of <= told.lines.length;
  showLinks(file);
  if (told.refused) {
    part = null;
    lines.replaceChildren(element("p", "note", `${told.refused}. Search again to see it as it is now.`));
    name.focus();
    return;
  }
  // what follows is of the same state
  for (const word of ["life", "version"]) if (told[word] !== undefined) words.set(word, told[word]);
  part = { file, words, own, first: told.from, last: lastOf(told), of: told.of, isBusy: false };
  at("file-of").textContent = `of ${told.of.toLocaleString("en")}`;
  lines.replaceChildren(...rowsOf(told));
  if (told.changed) lines.prepend(element("p", "note", "The file has changed since; this is how it is now."));
  lines.dataset.whole = isWhole ? "1" : "";
  showEnds(told);
  markFile();
  showRange(file, true);
  name.focus({ preventScroll: true });
}

const rowsOf = (told) => told.lines.map((text, index) => lineOf(part.file, text, told.from + index));

// Shows whether there are more lines before and behind those that are shown, and whether some are cut.
function showEnds(told) {
  const lines = at("file-lines");
  lines.querySelectorAll(".more").forEach((button) => button.remove());
  if (told.cut && !lines.dataset.whole && !lines.querySelector(".whole")) {
    const whole = element("button", "note whole", "Long lines are cut: show them whole"), file = part.file;
    whole.type = "button";
    whole.addEventListener("click", () => view(file, true));
    lines.prepend(whole);
  }
  if (part.first > 1) rowsOfFile()[0].before(moreButton(-1));
  if (part.last < part.of) lines.append(moreButton(1));
}

function moreButton(side) {
  const button = element("button", "note more", side < 0 ? "Lines before these" : "Lines behind these");
  button.type = "button";
  button.addEventListener("click", () => showMore(side));
  ends.observe(button);
  button.dataset.side = side;
  return button;
}

const ends = new IntersectionObserver((seen) => {
  for (const one of seen) if (one.isIntersecting && one.target.isConnected) showMore(Number(one.target.dataset.side));
}, { root: at("file-lines"), rootMargin: NEAR });

// Shows more lines before or behind those that are shown, and of those on the other side no more than there may be.
async function showMore(side) {
  const own = part;
  if (!own || own.isBusy) return;
  own.isBusy = true;
  let told, count = WINDOW;
  do {
    const from = side < 0 ? Math.max(1, own.first - count) : own.last + 1;
    told = await windowOf(own.words, own.file.file, from, side < 0 ? own.first - 1 : own.last + WINDOW);
    // lines before have to come up to those that are shown
    count = told.refused ? 0 : Math.min(told.lines.length, Math.ceil(count / 2));
  } while (side < 0 && !told.refused && lastOf(told) < own.first - 1);
  if (own !== part || own.own !== viewed) return;
  own.isBusy = false;
  if (told.refused || told.changed || !told.lines.length) return told.changed ? view(own.file) : undefined;
  const lines = at("file-lines"), rows = rowsOf(told), old = [...rowsOfFile()];
  const anchor = side < 0 ? old[0] : old[old.length - 1], place = anchor.getBoundingClientRect().top;
  if (side < 0) old[0].before(...rows);
  else old[old.length - 1].after(...rows);
  const over = Math.max(old.length + rows.length - MOST_ROWS, 0);
  (side < 0 ? old.slice(old.length - over) : old.slice(0, over)).forEach((row) => row.remove());
  if (side < 0) [own.first, own.last] = [told.from, own.last - over];
  else [own.first, own.last] = [own.first + over, lastOf(told)];
  showEnds(told);
  markFile();
  showRange(shownFile, false);
  if (anchor.isConnected) lines.scrollTop += anchor.getBoundingClientRect().top - place;
}

// Shows a line that is asked for by its number.
function jump() {
  const number = Number(at("file-line").value.replaceAll(",", ""));
  if (!part || !Number.isInteger(number) || number < 1) return;
  shownFile = { ...shownFile, lines: String(Math.min(number, part.of)) };
  history.replaceState(null, "", addressOf(shownFile));
  view(shownFile, Boolean(at("file-lines").dataset.whole));
}

function lineOf(file, text, number) {
  const row = element("div", "row"), label = element("a", "number", String(number)), column = element("span", "text", text);
  label.href = addressOf({ ...file, lines: number });
  label.setAttribute("aria-label", `Line ${number}`);
  label.addEventListener("click", (event) => {
    if (event.button || event.ctrlKey || event.metaKey || event.altKey) return;
    event.preventDefault();
    const [first] = rangeOf(shownFile);
    const ends = event.shiftKey && first ? [first, number].sort((one, other) => one - other) : [number];
    shownFile = { ...shownFile, lines: ends.join("-") };
    history.replaceState(null, "", addressOf(shownFile));
    showRange(shownFile, false);
    showLinks(shownFile);
  });
  row.append(label, column);
  return row;
}

const rowsOfFile = () => document.querySelectorAll("#file-lines .row");

function showRange(file, scrolls) {
  const [first, last] = rangeOf(file), rows = rowsOfFile();
  rows.forEach((row, index) => row.classList.toggle("target", index + part.first >= first && index + part.first <= last));
  if (scrolls && first && rows[first - part.first]) rows[first - part.first].scrollIntoView({ block: "center" });
}

// Shows the matches of the answer in the file that is open, if it is of the same state.
function markFile() {
  if (!shownFile || !part) return;
  const rows = rowsOfFile();
  for (const hit of found.get(keyOf(shownFile)) || []) {
    const text = rows[hit.line - part.first]?.querySelector(".text");
    if (text && !(hit.cut && at("file-lines").dataset.whole)) {
      text.replaceChildren();
      partsInto(text, hit.parts);
    }
  }
}

// The address of this page may be anybody's, so the link to the host is made of what the server has said.
function showLinks(file) {
  const told = shownState, one = told && served.find((other) => other.repository === told.repository), host = at("file-host");
  at("file-link").href = addressOf(file);
  host.hidden = !(one && one.link && told.commit);
  if (host.hidden) return host.removeAttribute("href");
  const values = { commit: told.commit, path: told.id, line: String(rangeOf(file)[0] || 1), repository: encodeURIComponent(told.repository) };
  host.href = one.link.replace(/\{(commit|path|line|repository)\}/g, (all, word) => values[word]);
}

function closeFile() {
  viewed++;
  at("file").hidden = true;
  shownFile = null;
  const row = document.querySelector(".row.shown");
  if (row) {
    row.classList.remove("shown");
    row.focus();
  }
}

// What is served.

async function showLoaded() {
  try {
    const told = await (await fetch("api/status")).json();
    const documents = told.repositories.reduce((sum, one) => sum + (one.documents || 0), 0);
    const loading = told.repositories.filter((one) => !one.loaded);
    if (pattern.value) return;
    const over = told.repositories.filter((one) => one.over).map(overOf).join("");
    const faults = told.repositories.filter((one) => one.fault).map((one) => ` ${one.repository}: ${one.fault}.`).join("");
    const few = told.workers && told.workers.needed > told.workers.there ? ` ${told.workers.needed} workers are needed, and there are ${told.workers.there}.` : "";
    if (loading.length) {
      const done = loading.reduce((sum, one) => sum + one.done, 0), of = loading.reduce((sum, one) => sum + one.of, 0);
      show(`Loading: ${done.toLocaleString("en")} of ${counted(of, "file")}.${faults}${few}`);
      setTimeout(showLoaded, 500);
    } else show(`${counted(documents, "file")} to search.${over}${faults}${few}`);
    return told;
  } catch (error) {
    show("The server does not answer.");
  }
}

// What is said of a repository of which something is over a limit.
function overOf(one) {
  const named = (one.named || []).slice(0, 3).map((file) => `${file.name}, ${file.why}`);
  return ` ${one.repository}: ${counted(one.over, "file")} or more left out over a limit${named.length ? ` (${named.join("; ")}${one.over > named.length ? "; .." : ""})` : ""}.`;
}

function addRepositories(told, wanted) {
  at("repositories").hidden = told.repositories.length < 2;
  for (const one of told.repositories) {
    const label = element("label"), box = element("input");
    box.type = "checkbox";
    box.value = one.repository;
    box.checked = wanted.includes(one.repository);
    label.append(box, element("span", "", one.repository));
    at("repositories").append(label);
  }
}

// The choice of a branch, where one repository is searched that has some.
function showRevisions() {
  const one = single(), names = one ? one.revisions.map((revision) => revision.name) : [];
  at("of-revisions").hidden = !names.length;
  if (!names.length) fields.revision.value = fields.before.value = "";
  at("revisions").replaceChildren(...names.map((name) => new Option(name, name)));
  fields.revision.placeholder = names[0] || "";
}

// Makes the page what its address says.
function restore() {
  const words = new URLSearchParams(location.search);
  pattern.value = words.get("q") || "";
  for (const [word, box] of Object.entries(options)) box.checked = words.has(word);
  for (const box of document.querySelectorAll("#repositories input")) box.checked = words.getAll("repository").includes(box.value);
  strange = words.getAll("repository").filter((name) => !served.some((one) => one.repository === name));
  showRevisions();
  for (const [word, field] of Object.entries(fields)) field.value = words.get(word) || "";
  context.value = Math.min(words.has("context") ? Number(words.get("context")) || 0 : 1, context.options.length - 1);
  const file = fileOf(words);
  if (file) {
    shownFile = file;
    view(file);
  } else if (shownFile) closeFile();
}

function moveBetweenRows(event) {
  const step = { ArrowDown: 1, ArrowUp: -1 }[event.key];
  if (!step || event.altKey || event.ctrlKey || event.metaKey || event.target.list) return;
  const rows = [...results.querySelectorAll("a.row")], index = rows.indexOf(document.activeElement);
  if (index < 0 && !(document.activeElement === pattern && step > 0)) return;
  event.preventDefault();
  (index + step < 0 ? pattern : rows[Math.min(index + step, rows.length - 1)])?.focus();
}

async function begin() {
  try {
    const told = await (await fetch("api/status")).json();
    served = told.repositories;
    addRepositories(told, []);
    for (let lines = 0; lines <= told.context; lines++) context.append(new Option(lines, lines));
  } catch (error) {
    show("The server does not answer.");
  }
  const typed = () => {
    strange = [];
    if (!pattern.value || [...pattern.value].length >= LEAST) search();
    else {
      if (running) running.abort();
      show("Enter searches for fewer than three letters.");
    }
  };
  pattern.addEventListener("input", typed);
  for (const field of Object.values(fields)) field.addEventListener("input", typed);
  context.addEventListener("change", search);
  at("form").addEventListener("change", (event) => {
    if (event.target.type !== "checkbox") return;
    strange = [];
    showRevisions();
    search();
  });
  at("form").addEventListener("submit", (event) => { event.preventDefault(); search(); });
  at("file-jump").addEventListener("submit", (event) => { event.preventDefault(); jump(); });
  at("close").addEventListener("click", () => { closeFile(); history.pushState(null, "", addressOf(null)); });
  document.addEventListener("keydown", (event) => {
    if (event.key === "Escape" && shownFile) at("close").click();
    if (event.key === "/" && event.target.tagName !== "INPUT") { event.preventDefault(); pattern.select(); }
    moveBetweenRows(event);
  });
  window.addEventListener("popstate", () => {
    restore();
    if (String(wordsOf()) !== searched) search();
  });
  restore();
  search();
}

begin();
