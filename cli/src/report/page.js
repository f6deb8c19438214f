"use strict";
(() => {
  // Characters that are not seen, or that turn text around, are shown as their numbers.
  const HIDDEN = /[\p{Cc}\p{Cf}\p{Zl}\p{Zp}]/gu;
  const MOST_IN_TROUBLE = 100;
  const MOST_MONTHS = 60;
  const COLUMNS = [
    { key: "picture", title: "Picture" },
    { key: "name", title: "Name" },
    { key: "bytes", title: "Bytes", kind: "number" },
    { key: "form", title: "Form" },
    { key: "kept_until", title: "Kept until", kind: "date" },
    { key: "corrections", title: "Corrections", kind: "number" },
    { key: "sums", title: "Sums" },
    { key: "state", title: "Check" },
    { key: "may_purge", title: "Purge" },
  ];
  const SUMS = { agree: ["good", "good"], none: ["none", "warn"], bad: ["bad", "bad"] };
  const PURGE = { yes: "yes", "not yet": "not yet", "no keep line": "no keep date" };

  const byId = (id) => document.getElementById(id);
  const numbers = new Intl.NumberFormat("en");
  const count = (number) => numbers.format(number);
  const many = (number, one, more) => `${count(number)} ${number === 1 ? one : more}`;
  const visible = (text) => text.replace(HIDDEN, (c) => `\\u{${c.codePointAt(0).toString(16)}}`);

  // Every text of the page goes through here: as a text node or as an attribute's value, never as markup.
  function make(tag, attributes, ...children) {
    const element = document.createElement(tag);
    for (const [name, value] of Object.entries(attributes || {})) element.setAttribute(name, value);
    element.append(...children.filter((child) => child !== null && child !== undefined).map((child) => child instanceof Node ? child : visible(String(child))));
    return element;
  }

  function drawn(tag, attributes) {
    const element = document.createElementNS("http://www.w3.org/2000/svg", tag);
    for (const [name, value] of Object.entries(attributes)) element.setAttribute(name, value);
    return element;
  }

  const summary = JSON.parse(byId("summary").textContent);
  // One array for each column that is sorted or searched; a row's other parts are read again when it is shown.
  const table = { name: [], lower: [], bytes: [], form: [], kept_until: [], corrections: [], sums: [], state: [], may_purge: [] };
  const blocks = [];
  const blockOf = [];
  const startOf = [];
  const endOf = [];
  const orders = new Map();
  const view = { order: new Uint32Array(0), key: null, down: false, page: 0, size: 50, words: "", filter: "all" };

  const rowAt = (place) => JSON.parse(blocks[blockOf[place]].slice(startOf[place], endOf[place]));

  function note(row) {
    for (const key of ["name", "bytes", "form", "kept_until", "corrections", "sums", "state", "may_purge"]) table[key].push(row[key]);
    table.lower.push(row.name.toLowerCase());
  }

  function readBlock(element) {
    const text = element.textContent;
    blocks.push(text);
    element.remove();
    for (let start = text.indexOf("{"), end; start >= 0 && start < text.length; start = end + 1) {
      end = text.indexOf("\n", start);
      note(JSON.parse(text.slice(start, end)));
      blockOf.push(blocks.length - 1);
      startOf.push(start);
      endOf.push(end);
    }
  }

  // Block by block, so that the page answers meanwhile.
  async function read() {
    for (const element of document.querySelectorAll("script.rows")) {
      readBlock(element);
      byId("loading").textContent = `Reading the rows: ${count(table.name.length)} of ${count(summary.totals.holdings)}`;
      await new Promise((go) => setTimeout(go));
    }
    byId("loading").textContent = "";
  }

  const accepts = {
    all: () => true,
    trouble: (place) => table.state[place] !== "agree",
    corrected: (place) => table.corrections[place] > 0,
    due: (place) => table.may_purge[place] === "yes",
  };

  // What is not known stands last, whichever way is sorted.
  function compare(column, down) {
    const turn = down ? -1 : 1;
    return (one, other) => {
      const [a, b] = [column[one], column[other]];
      if (a === b) return one - other;
      if (a === null || b === null) return a === null ? 1 : -1;
      return a < b ? -turn : turn;
    };
  }

  // All rows in the order asked for; each order is made once, so that a search need not sort.
  function sorted() {
    const asked = `${view.key} ${view.down}`;
    if (!orders.has(asked)) {
      const order = Uint32Array.from(table.name.keys());
      orders.set(asked, view.key ? order.sort(compare(table[view.key], view.down)) : order);
    }
    return orders.get(asked);
  }

  function choose() {
    const [words, accept] = [view.words.toLowerCase(), accepts[view.filter]];
    const order = new Uint32Array(table.name.length);
    let found = 0;
    for (const place of sorted()) {
      if (accept(place) && table.lower[place].includes(words)) order[found++] = place;
    }
    view.order = order.subarray(0, found);
    view.page = 0;
    show();
  }

  const pages = () => Math.max(1, Math.ceil(view.order.length / view.size));

  function show() {
    const start = view.page * view.size;
    const shown = [...view.order.subarray(start, start + view.size)];
    byId("rows").replaceChildren(...shown.map((place, number) => tableRow(place, start + number)));
    byId("holdings").setAttribute("aria-rowcount", view.order.length + 1);
    const range = shown.length ? `rows ${count(start + 1)} to ${count(start + shown.length)} of ` : "";
    byId("found").textContent = `${range}${many(view.order.length, "holding", "holdings")}${view.order.length === table.name.length ? "" : ` found among ${count(table.name.length)}`}`;
    byId("page").value = view.page + 1;
    byId("page").max = pages();
    byId("pages").textContent = `of ${count(pages())}`;
    byId("first").disabled = byId("previous").disabled = view.page === 0;
    byId("last").disabled = byId("next").disabled = view.page + 1 >= pages();
  }

  const nothing = (text) => make("span", { class: "none" }, text);
  const link = (place, name) => make("a", { href: `#holding-${place}` }, make("bdi", null, name));

  function state(word) {
    return make("span", { class: word === "agree" ? "good" : "bad" }, word === "agree" ? "whole" : word);
  }

  function sums(word) {
    const [text, kind] = SUMS[word] || [word, "none"];
    return make("span", { class: kind }, text);
  }

  // Its own name stands beside it, so that the picture says nothing more to a screen reader.
  function small(row) {
    return row.picture ? make("img", { class: "small", alt: "", src: `data:image/png;base64,${row.picture.png}` }) : nothing("none");
  }

  function tableRow(place, number) {
    const row = rowAt(place);
    const known = (value) => value === null ? nothing("not known") : value;
    return make("tr", { "aria-rowindex": number + 2 },
      make("td", null, small(row)),
      make("th", { scope: "row", class: "name" }, link(place, row.name)),
      make("td", { class: "number" }, count(row.bytes)),
      make("td", null, known(row.form)),
      make("td", { class: "date" }, row.kept_until === null ? nothing(row.may_purge === null ? "not known" : "no date") : row.kept_until),
      make("td", { class: "number" }, row.corrections === null ? nothing("not known") : count(row.corrections)),
      make("td", null, sums(row.sums)),
      make("td", null, state(row.state)),
      make("td", null, known(PURGE[row.may_purge] || null)));
  }

  function sortBy(key) {
    [view.down, view.key] = [view.key === key && !view.down, key];
    for (const head of byId("heads").children) {
      if (head.hasAttribute("aria-sort")) head.setAttribute("aria-sort", head.dataset.key !== key ? "none" : view.down ? "descending" : "ascending");
    }
    choose();
  }

  function showHeads() {
    byId("heads").append(...COLUMNS.map(({ key, title, kind }) => {
      if (key === "picture") return make("th", { scope: "col" }, title);
      const button = make("button", { type: "button" }, title);
      button.addEventListener("click", () => sortBy(key));
      return make("th", { scope: "col", class: kind || "", "aria-sort": "none", "data-key": key }, button);
    }));
  }

  function facts(pairs, className) {
    return make("dl", { class: className }, ...pairs.map(([term, said]) => make("div", null, make("dt", null, term), make("dd", null, said))));
  }

  function showTotals() {
    const { totals, sums: sealed, may_purge: purge } = summary;
    const pairs = [
      ["Holdings", count(totals.holdings)], ["Bytes", count(summary.bytes)], ["Whole", count(totals.agree)],
      ["Refused", count(totals.refused)], ["Damaged", count(totals.damaged)], ["Not looked at: the machine failed", count(totals.failed)],
      ["Without sums", count(sealed.none)], ["Corrections standing", `${count(summary.corrections)} in ${many(summary.corrected, "holding", "holdings")}`],
      [`May be purged on ${summary.day}`, count(purge.yes)], ["Not yet", count(purge.not_yet)], ["No keep date", count(purge.no_keep_line)],
      ["Ledgers that are no holding", count(summary.not_holdings)],
    ];
    byId("totals").replaceWith(Object.assign(facts(pairs, "tiles"), { id: "totals" }));
  }

  // By month, or by year where there are many months.
  function periods() {
    const length = summary.due.length > MOST_MONTHS ? 4 : 7;
    const sum = new Map();
    for (const { month, holdings, bytes } of summary.due) {
      const period = sum.get(month.slice(0, length)) || { holdings: 0, bytes: 0 };
      sum.set(month.slice(0, length), { holdings: period.holdings + holdings, bytes: period.bytes + bytes });
    }
    return [...sum];
  }

  function showDue() {
    const found = periods();
    const most = Math.max(1, ...found.map(([, { bytes }]) => bytes));
    const day = summary.day;
    byId("due-about").textContent = found.length ? `A holding may be purged from the day after its last keep date. What the ledgers answer is for ${day}.` : "No holding has a keep date that stands.";
    byId("due").caption.textContent = found.length ? `Last keep dates by ${found[0][0].length === 4 ? "year" : "month"}` : "";
    byId("due-region").hidden = !found.length;
    byId("due").tBodies[0].append(...found.map(([period, { holdings, bytes }]) => {
      const bar = make("div", { class: "bar", "aria-hidden": "true" });
      bar.style.width = `${100 * bytes / most}%`;
      const passed = period < day.slice(0, period.length) ? " (passed)" : "";
      return make("tr", null, make("th", { scope: "row" }, period + passed), make("td", { class: "number" }, count(holdings)), make("td", { class: "number" }, count(bytes)), make("td", { class: "bars" }, bar));
    }));
  }

  function troubleItem(place) {
    const { name, state: word, trouble } = rowAt(place);
    return make("li", null, link(place, name), " ", state(word), make("br"), trouble.said, " ", trouble.then);
  }

  function showTrouble() {
    const places = [...table.state.keys()].filter(accepts.trouble);
    const some = places.slice(0, MOST_IN_TROUBLE);
    byId("trouble").hidden = !places.length;
    const rest = places.length > some.length ? ` The first ${count(some.length)} are listed here; the table shows all of them under “those that need attention”.` : "";
    byId("trouble-about").textContent = `${many(places.length, "holding or folder is", "holdings or folders are")} refused, damaged or could not be looked at.${rest}`;
    byId("trouble-list").replaceChildren(...some.map(troubleItem));
  }

  const standing = (row) => (row.lines || []).filter((line) => line.kind === "correct" && !line.withdrawn);

  function marked(row) {
    const { png, step, black, white } = row.picture;
    const corrected = standing(row);
    const image = make("img", { src: `data:image/png;base64,${png}`, alt: `The frame of ${visible(row.name)}, ${many(corrected.length, "corrected pixel", "corrected pixels")} marked` });
    const [across, down] = [step * Math.ceil(row.columns / step), step * Math.ceil(row.rows / step)];
    const marks = drawn("svg", { viewBox: `0 0 ${across} ${down}`, "aria-hidden": "true", preserveAspectRatio: "none" });
    const radius = Math.max(across, down) / 50;
    for (const { pixel } of corrected) marks.append(drawn("circle", { cx: pixel % row.columns + 0.5, cy: Math.floor(pixel / row.columns) + 0.5, r: radius }));
    const scale = `Logarithmic, black ${count(black)}, white ${count(white)}` + (step > 1 ? `; each point is the greatest count of ${step} x ${step} pixels` : "");
    return make("figure", null, make("div", { class: "frame" }, image, marks), make("figcaption", { class: "quiet" }, scale));
  }

  function picture(row) {
    if (row.picture) return marked(row);
    if (row.state !== "agree") return null;
    return make("p", { class: "none" }, `No picture: ${many(summary.pictures, "holding has", "holdings have")} one, those with corrections and then the first. \`quayrudder view\` makes one of the held file, and \`--pictures\` asks for more here.`);
  }

  function grid(caption, heads, rows, kind) {
    return make("div", { class: "scroll", role: "region", "aria-label": caption, tabindex: "0" }, make("table", null,
      make("caption", { class: "unseen" }, caption),
      make("thead", null, make("tr", null, ...heads.map((head) => make("th", { scope: "col", class: kind || "" }, head)))),
      make("tbody", null, ...rows)));
  }

  function corrections(row) {
    const cells = (line) => [line.line, line.pixel, Math.floor(line.pixel / row.columns), line.pixel % row.columns, line.old, line.new];
    const rows = standing(row).map((line) => make("tr", null, ...cells(line).map((cell) => make("td", { class: "number" }, Number.isNaN(cell) ? "not known" : count(cell)))));
    if (!rows.length) return [];
    return [make("h3", null, "Corrected pixels"), grid("Corrections that stand", ["Line", "Pixel", "Row", "Column", "Old count", "New count"], rows, "number")];
  }

  function lineText(line) {
    if (line.kind === "correct") return `pixel ${count(line.pixel)} corrected from ${count(line.old)} to ${count(line.new)}`;
    return line.kind === "keep" ? `kept until ${line.date}` : "withdrawal";
  }

  function ledger(row) {
    if (row.lines === null) return [];
    const head = make("h3", null, "Ledger");
    if (!row.lines.length) return [head, make("p", null, "It has no lines.")];
    const rows = row.lines.map((line) => make("tr", null,
      make("td", { class: "number" }, count(line.line)),
      make("td", line.withdrawn ? { class: "gone" } : null, lineText(line)),
      make("td", null, line.kind === "withdraw" ? "" : line.withdrawn ? "withdrawn" : "stands")));
    const cut = row.left_out ? make("p", { class: "warn" }, `${many(row.left_out, "earlier line is", "earlier lines are")} left out here. \`quayrudder list\` shows all of them.`) : null;
    return [head, ...(cut ? [cut] : []), grid("Lines of the ledger", ["Line", "What it says", "State"], rows)];
  }

  function purge(row) {
    const said = row.purge === null ? "Not known: what is wrong with the holding comes first, and a sweep leaves it alone while that is so." : `For ${summary.day}: ${row.purge}. ${row.advice || ""}`;
    return [make("h3", null, "May it be purged?"), make("p", null, said)];
  }

  function trouble(row) {
    if (!row.trouble) return [];
    return [make("p", { class: "bad" }, row.trouble.said), make("p", null, row.trouble.then)];
  }

  function one(place) {
    const row = rowAt(place);
    byId("one-title").replaceChildren(make("bdi", null, row.name));
    const size = row.rows === null ? "not known" : `${count(row.rows)} rows, ${count(row.columns)} columns, form ${row.form}`;
    const pairs = [["Check", state(row.state)], ["Sums", sums(row.sums)], ["Frame", size], ["Held file and ledger", `${count(row.bytes)} bytes`]];
    const body = [...trouble(row), facts(pairs, "facts"), ...purge(row), picture(row), ...corrections(row), ...ledger(row)];
    byId("one-body").replaceChildren(...body.filter((part) => part !== null));
  }

  // The part behind # says what is shown, so that the browser's way back works and a holding can be bookmarked.
  function route(event) {
    const place = /^#holding-(\d+)$/.exec(location.hash);
    const opened = place !== null && Number(place[1]) < table.name.length;
    if (opened) one(Number(place[1]));
    byId("all").hidden = opened;
    byId("one").hidden = !opened;
    document.title = opened ? `${visible(table.name[Number(place[1])])} - archive report` : `Archive report: ${visible(summary.folder)}`;
    if (opened) byId("one-title").focus();
    else if (event && location.hash === "#all") byId("holdings-title").focus();
  }

  function turn(page) {
    view.page = Math.min(Math.max(0, page), pages() - 1);
    show();
  }

  function listen() {
    let waiting;
    byId("search").addEventListener("input", (event) => {
      clearTimeout(waiting);
      waiting = setTimeout(() => { view.words = event.target.value; choose(); }, 120);
    });
    byId("filter").addEventListener("change", (event) => { view.filter = event.target.value; choose(); });
    byId("size").addEventListener("change", (event) => { view.size = Number(event.target.value); turn(0); });
    byId("page").addEventListener("change", (event) => turn(Math.trunc(Number(event.target.value)) - 1 || 0));
    byId("first").addEventListener("click", () => turn(0));
    byId("previous").addEventListener("click", () => turn(view.page - 1));
    byId("next").addEventListener("click", () => turn(view.page + 1));
    byId("last").addEventListener("click", () => turn(pages() - 1));
    byId("controls").addEventListener("submit", (event) => event.preventDefault());
    window.addEventListener("hashchange", route);
  }

  async function start() {
    byId("title").replaceChildren("Archive report: ", make("bdi", null, summary.folder));
    byId("about").textContent = `Made ${summary.made}, with the ledgers asked for ${summary.day}.`;
    byId("footer").textContent = "Every figure is as the proved library answered when this page was made; the archive may have changed since.";
    showTotals();
    showDue();
    showHeads();
    listen();
    await read();
    showTrouble();
    choose();
    route();
    document.documentElement.dataset.ready = "yes";
  }

  start();
})();
