"use strict";
/* The page: asks the service and tells what it says. Every answer is shown with the question that it belongs to. */

const $ = id => document.getElementById(id);
/* What is known: the sources, the map on display with its question, the place in hundredths of a degree and what is told of it. */
const page = {
  coast: [], sources: [], edition: null, shown: null, frame: null, place: null, told: null, following: true, clock: 0, lost: null,
};

const stamp = second => new Date(1000 * second).toISOString().slice(0, 19);
const spoken = word => word.replace("T", " ");
const secondOf = word => Date.parse(word + "Z") / 1000;
const degrees = hundredths => (hundredths / 100).toFixed(2);

/* An element with words or other elements in it. Words are never read as markup. */
function el(name, inside = [], kind = "") {
  const element = document.createElement(name);
  element.className = kind;
  element.append(...[inside].flat());
  return element;
}

/* ---- Asking ---- */

async function get(path, parts = {}, signal) {
  const query = new URLSearchParams(parts).toString();
  const reply = await fetch(path + (query && "?" + query), { signal, cache: "no-store" });
  return { ...await reply.json(), http: reply.status };
}

/* A kind of question of which only the newest counts: the one before it is given up, and an answer that is late is dropped. */
class Newest {
  #turn = 0;
  #stop = new AbortController();
  async ask(work) {
    const mine = ++this.#turn;
    this.#stop.abort();
    this.#stop = new AbortController();
    const patience = setTimeout(stop => stop.abort(), 15000, this.#stop);
    try {
      const answer = await work(this.#stop.signal);
      return mine === this.#turn ? answer : null;
    } catch (error) {
      if (mine === this.#turn) throw error;
      return null;
    } finally {
      clearTimeout(patience);
    }
  }
}
const mapQuestion = new Newest(), placeQuestion = new Newest(), healthQuestion = new Newest();

/* Which maps an answer is of. Generations begin anew when the service is started again, so its start is part of it. */
const editionOf = reply => [reply.start, reply.source, reply.generation].join(" ");

/* Several answers from the same maps: asked again where the maps changed between them. */
async function together(questions, signal) {
  for (let tries = 0; tries < 5; tries++) {
    const replies = await Promise.all(questions.map(([path, parts]) => get(path, parts, signal)));
    if (replies.every(reply => editionOf(reply) === editionOf(replies[0]))) return replies;
  }
  throw new Error("the maps changed at each of five tries");
}

const question = () => {
  const asked = { time: stamp(+$("slider").value), kind: $("kind").value, method: $("method").value };
  if (+$("layer").value) asked.layer = $("layer").value;
  return asked;
};

/* ---- The map ---- */

async function show() {
  const asked = question();
  /* nobody's typing is overwritten */
  if (document.activeElement !== $("time")) $("time").value = spoken(asked.time);
  $("time-fault").textContent = "";
  $("now").setAttribute("aria-pressed", page.following);
  try {
    const reply = await mapQuestion.ask(signal => get("/v1/map", asked, signal));
    if (!reply) return;
    if (reply.thousandths) reply.values = Float64Array.from(reply.thousandths, value => value ?? NaN);
    page.shown = { asked, reply };
    caption();
    draw();
    if (page.place) await tell();
  } catch (error) {
    silent(error);
  }
}

function caption() {
  const { asked, reply } = page.shown;
  const chosen = id => [...$(id).options].find(option => option.value === asked[id]).textContent;
  const words = `${chosen("kind")} at ${spoken(asked.time)} UT`;
  const rest = reply.values ? `, ${chosen("method")}; ${reply.source}, generation ${reply.generation}` : "; " + reasonOf(reply);
  $("caption").replaceChildren(el("strong", words), rest);
  $("map").setAttribute("aria-label", `Map of ${words}${rest}`);
}

function draw() {
  if (!page.shown) return;
  const { asked, reply } = page.shown, ink = getComputedStyle(document.body).color;
  if (!reply.values) return drawRefusal(reply, ink);
  const told = isOf(page.told, asked) ? page.told : null;
  const place = page.place && { lat: page.place.lat / 100, lon: page.place.lon / 100 };
  const range = rangeOf(reply.values, asked.kind !== "height");
  page.frame = drawMap($("map"), reply, range, page.coast, place, told ? told.nodes : [], ink);
  drawScale($("scale"), page.frame, range, reply.unit, told?.value.thousandths, ink);
}

/* Whether an answer is a value at the place that is marked, on the map that is drawn. */
function isOf(told, map) {
  return told?.value.http === 200 && ["time", "kind", "method", "layer"].every(name => told.asked[name] === map[name])
    && told.asked.lat === degrees(page.place.lat) && told.asked.lon === degrees(page.place.lon);
}

function drawRefusal(reply, ink) {
  page.frame = null;
  const pen = fitted($("map"), 120);
  pen.fillStyle = ink;
  pen.font = "16px system-ui, 'DejaVu Sans', sans-serif";
  pen.fillText(reasonOf(reply), 12, 40, $("map").clientWidth - 24);
  fitted($("scale"), 42);
}

const reasonOf = reply => reply.refused ? `Refused ${reply.refused}: ${reply.reason}` : reply.error || "No answer";

/* ---- A place ---- */

async function tell() {
  const asked = { lat: degrees(page.place.lat), lon: degrees(page.place.lon), ...question() };
  $("answer").className = "asking";
  try {
    const carried = { ...asked, carrier: $("carrier").value };
    const replies = await placeQuestion.ask(signal => together([["/v1/ask", carried], ["/v1/why", asked]], signal));
    if (!replies) return;
    const [value, why] = replies;
    const nodes = (why.nodes || []).map(node => ({ ...node, share: node.weight / why.denominator }));
    page.told = { asked: carried, value, why, nodes };
    $("answer").className = "";
    $("answer").replaceChildren(...answerOf(page.told));
    if (page.shown && editionOf(value) !== editionOf(page.shown.reply)) await load(); else draw();
  } catch (error) {
    silent(error);
  }
}

function answerOf({ asked, value, why, nodes }) {
  const link = el("a", "this question for programs", "quiet");
  link.href = "/v1/ask?" + new URLSearchParams(asked);
  const heading = el("p", `${asked.lat}°, ${asked.lon}° at ${spoken(asked.time)} UT`);
  if (value.http !== 200) {
    const refusal = el("div", el("strong", reasonOf(value)), "refusal");
    const lacking = why.lacking || value.lacking;
    if (lacking) refusal.append(el("p", lacking.words));
    return [heading, refusal, el("p", link)];
  }
  const number = el("p", [value.value.toFixed(3), " ", el("small", value.unit)], "value");
  const delay = value.delay_metres === undefined ? []
    : [el("p", [el("strong", `${value.delay_metres.toFixed(4)} m`), ` of delay at ${asked.carrier}`])];
  return [heading, number, ...delay, el("div", tableOf(why, nodes), "scroll"), el("p", link)];
}

function tableOf(why, nodes) {
  const row = (cell, words) => el("tr", words.map(word => el(cell, word)));
  const lines = nodes.map(node => row("td", [spoken(node.epoch).slice(5, 16), node.lat.toFixed(1), node.lon.toFixed(1),
    node.value.toFixed(3), (100 * node.share).toFixed(2) + " %"]));
  return el("table", [el("caption", "Made of these nodes; the sum is rounded once."),
    row("th", ["map of", "lat", "lon", why.unit, "share"]), ...lines]);
}

/* Moves to a place, kept within the grid; round the Earth where the grid goes round. */
function goTo(lat, lon) {
  if (page.frame) {
    const { north, south, west, east } = page.frame;
    const within = (value, low, high) => Math.min(Math.max(value, 100 * low), 100 * high);
    lat = within(lat, south, north);
    if (east - west === 360) lon = ((lon - 100 * west) % 36000 + 36000) % 36000 + 100 * west;
    lon = within(lon, west, east);
  }
  page.place = { lat: Math.round(lat), lon: Math.round(lon) };
  [$("lat").value, $("lon").value] = [degrees(page.place.lat), degrees(page.place.lon)];
  draw();
  return tell();
}

/* ---- Times ---- */

/* Moves the time; where it is chosen by hand the clock is no longer followed. */
function moveTo(second, following = false) {
  page.following = following;
  const slider = $("slider");
  slider.value = Math.min(Math.max(second, +slider.min), +slider.max);
  return show();
}

const covered = second =>
  page.sources.some(source => source.name && secondOf(source.first) <= second && second <= secondOf(source.last));

/* The next epoch of a map in a direction. */
function nextEpoch(direction) {
  const at = +$("slider").value;
  const later = epochsOf().filter(epoch => direction * (epoch - at) > 0);
  if (later.length) moveTo(direction > 0 ? Math.min(...later) : Math.max(...later));
}

const epochsOf = () => [...new Set(page.sources.flatMap(source => source.epochs || []).map(secondOf))].sort((a, b) => a - b);

/* The second that is typed, to the day, the minute or the second; NaN where it is none. */
function typedSecond() {
  const words = $("time").value.trim().replace(" ", "T");
  const whole = words + "T00:00:00".slice(Math.max(0, words.length - 10));
  const second = /^\d{4}-\d\d-\d\dT\d\d:\d\d:\d\d$/.test(whole) ? secondOf(whole) : NaN;
  return second === second && stamp(second) === whole ? second : NaN;
}

function typedTime() {
  const second = typedSecond(), ends = [+$("slider").min, +$("slider").max], fault = $("time-fault");
  if (Number.isNaN(second)) fault.textContent = "Expected a time as 2010-12-04 06:30:00";
  else if (second >= ends[0] && second <= ends[1]) moveTo(second);
  else fault.textContent = "The maps reach from " + ends.map(end => spoken(stamp(end))).join(" to ");
}

/* ---- What the service says of itself ---- */

async function load() {
  const maps = await get("/v1/maps");
  if (maps.http !== 200) return;
  page.sources = maps.sources;
  const standing = page.sources.filter(source => source.name), epochs = epochsOf();
  setSlider(epochs);
  for (const option of $("kind").options) option.disabled = !standing.some(source => source.standing[option.value]);
  setLayers(standing.map(source => source.heights).reduce((most, axis) => axis.count > most.count ? axis : most));
  if (!page.shown) firstLook(standing, epochs);
  if (page.following) $("slider").value = minute(page.clock);
  await show();
}

const minute = second => Math.floor(second / 60) * 60;

function setSlider(epochs) {
  const slider = $("slider"), marks = epochs.length > 100 ? [] : epochs;
  slider.step = epochs.every(epoch => (epoch - epochs[0]) % 60 === 0) ? 60 : 1;
  [slider.min, slider.max] = [epochs[0], epochs[epochs.length - 1]];
  $("epochs").replaceChildren(...marks.map(epoch => new Option("", epoch)));
}

function setLayers({ first, step, count }) {
  $("layers").hidden = count < 2;
  if ($("layer").options.length === count) return;
  const option = (_, layer) => new Option(`${layer}: ${(first + layer * step).toFixed(1)} km`, layer);
  $("layer").replaceChildren(...Array.from({ length: count }, option));
}

/* Whether maps can be turned with the Sun: round the Earth, columns at most 5 degrees and maps at most two hours apart. */
function turns({ longitudes, epochs }) {
  const seconds = epochs.map(secondOf);
  return longitudes.last - longitudes.first === 360 && longitudes.step <= 5
    && seconds.every((second, i) => i === 0 || second - seconds[i - 1] <= 7200);
}

/* Maps that cannot be turned are shown interpolated; maps of another day in their middle. */
function firstLook(standing, epochs) {
  if (!standing.some(turns)) $("method").value = "between";
  if (covered(page.clock)) return;
  page.following = false;
  $("slider").value = (epochs[0] + epochs[epochs.length - 1]) / 2;
}

const ago = seconds => seconds < 120 ? `${Math.round(seconds)} s` : seconds < 7200 ? `${Math.round(seconds / 60)} min`
  : seconds < 172800 ? `${Math.round(seconds / 3600)} h` : `${Math.round(seconds / 86400)} days`;

const STATES = { stale: "STALE", empty: "NO MAPS", silent: "NOT ANSWERING" };
/* A file that is missing, or that could not be read at all, has no number of the library. */
const faultOf = ({ number }) => number ? "REFUSED" : "NOT READ";

/* The state in the badge and in the title, and which maps are in use. */
function head(state, health) {
  const refused = health.refused || [], worst = refused.find(one => one.number) || refused[0];
  const fault = STATES[state] || (worst && faultOf(worst));
  $("badge").textContent = STATES[state] || (fault ? `current, newer file ${fault}` : state);
  $("badge").className = fault ? "badge bad" : "badge good";
  document.title = fault ? fault + ": ionosphere maps" : "Ionosphere maps";
  const facts = !health.generation ? [] : [["source", health.source], ["file", health.name], ["generation", health.generation],
    ["taken", ago(health.age_seconds) + " ago"], ["reaches to", spoken(health.last) + " UT"]];
  $("about").replaceChildren(...facts.map(([name, fact]) => el("div", [el("dt", name), el("dd", String(fact))])));
}

/* The alarms, said anew only where their words have changed: a screen reader tells each once. */
function alarms(all) {
  const words = JSON.stringify(all);
  if ($("alarms").dataset.words === words) return;
  $("alarms").dataset.words = words;
  $("alarms").replaceChildren(...all.map(({ head, text, lines = [] }) =>
    el("div", [el("strong", head), text, ...lines.filter(Boolean).map(line => el("p", line))], "alarm")));
}

/* STALE or NO MAPS first, then each file that is refused. */
function alarmsOf(health) {
  const why = (health.words || "").replace(/(\d)T(\d)/g, "$1 $2") + ".", state = STATES[health.status];
  const refused = (health.refused || []).map(one => refusalOf(one, health.generation ? "The maps in use stay." : ""));
  return state ? [{ head: state, text: why }, ...refused] : refused;
}

function refusalOf(refused, rest) {
  const { source, file, line, column, reason, expected, hints = [] } = refused;
  const place = (line ? `, line ${line}` : "") + (column ? `, column ${column}` : "");
  const lines = [expected && `Expected ${expected}.`, ...hints.map(hint => `Hint: ${hint}.`)];
  return { head: faultOf(refused), text: `${file} of ${source}${place}: ${reason}. ${rest}`, lines };
}

/* What a source has: its files, and from when to when they reach. */
function reachOf({ name, epochs, first, last, run_by }) {
  if (!name) return "no accepted file";
  const maps = epochs.length === 1 ? "1 map" : `${epochs.length} maps`;
  return `${name}, ${maps}, ${spoken(first)} to ${spoken(last)}, run by ${run_by || "unknown"}`;
}

function listSources(health) {
  if (!page.sources.length) return;
  $("sources").replaceChildren(...page.sources.map(one => {
    const used = one.generation && one.generation === health.generation;
    const refused = (health.refused || []).find(other => other.source === one.source);
    const state = [used && "in use", refused && `newer file ${faultOf(refused).toLowerCase()}`].filter(Boolean).join(", ");
    return el("li", [el("strong", one.source), state && ` (${state})`, el("br"), el("span", reachOf(one), "quiet")]);
  }));
}

function silent(error) {
  console.warn(String(error));
  page.lost ??= spoken(stamp(Date.now() / 1000));
  head("silent", {});
  document.body.className = "silent";
  const text = `the service has not answered since ${page.lost} UT. What is shown is the last that it said.`;
  alarms([{ head: STATES.silent, text }]);
}

async function watch() {
  try {
    const health = await healthQuestion.ask(signal => get("/v1/health", {}, signal));
    if (!health) return;
    page.lost = null;
    page.clock = secondOf(health.now);
    /* What another start of the service has shown is not what this one has. */
    document.body.className = health.generation ? "" : "silent";
    head(health.status, health);
    alarms(alarmsOf(health));
    const edition = editionOf(health) + " " + (health.newest ?? "");
    if (health.generation && edition !== page.edition) {
      await load();
      page.edition = edition;
    } else if (page.following && page.shown && covered(page.clock) && page.clock - $("slider").value >= 60) {
      moveTo(minute(page.clock), true);
    }
    listSources(health);
  } catch (error) {
    silent(error);
  }
}

/* ---- Hands ---- */

$("map").addEventListener("click", event => {
  const box = $("map").getBoundingClientRect(), frame = page.frame;
  if (frame) goTo(100 * frame.lat(event.clientY - box.top), 100 * frame.lon(event.clientX - box.left));
});
$("map").addEventListener("keydown", event => {
  const way = { ArrowLeft: [0, -1], ArrowRight: [0, 1], ArrowUp: [1, 0], ArrowDown: [-1, 0] }[event.key];
  if (!way) return;
  event.preventDefault();
  const { lat, lon } = page.place || { lat: 0, lon: 0 }, step = event.shiftKey ? 1000 : 100;
  goTo(lat + step * way[0], lon + step * way[1]);
});
$("where").addEventListener("submit", event => {
  event.preventDefault();
  const hundredths = ({ value }) => /^[+-]?\d+(\.\d{1,2})?$/.test(value.trim()) ? Math.round(100 * value) : NaN;
  const [lat, lon] = [hundredths($("lat")), hundredths($("lon"))];
  const fault = "Expected degrees with at most two decimals, as 47.25 and -8.50.";
  if (Number.isNaN(lat + lon)) return $("answer").replaceChildren(el("div", fault, "refusal"));
  page.place = { lat, lon };
  draw();
  tell();
});
$("slider").addEventListener("input", () => moveTo(+$("slider").value));
$("slider").addEventListener("keydown", event => {
  const step = { ArrowLeft: -300, ArrowDown: -300, ArrowRight: 300, ArrowUp: 300 }[event.key];
  if (step) { event.preventDefault(); moveTo(+$("slider").value + step); }
  if (event.key === "PageUp" || event.key === "PageDown") { event.preventDefault(); nextEpoch(event.key === "PageUp" ? 1 : -1); }
});
$("when").addEventListener("submit", event => { event.preventDefault(); typedTime(); });
$("time").addEventListener("change", typedTime);
$("time").addEventListener("blur", () => { $("time").value = spoken(question().time); });
$("before").addEventListener("click", () => nextEpoch(-1));
$("after").addEventListener("click", () => nextEpoch(1));
$("now").addEventListener("click", () => {
  if (covered(page.clock)) moveTo(minute(page.clock), true);
  else $("time-fault").textContent = "No map covers the present second.";
});
for (const id of ["kind", "method", "layer"]) $(id).addEventListener("change", show);
$("carrier").addEventListener("change", () => page.place && tell());
new ResizeObserver(draw).observe($("view"));
matchMedia("(prefers-color-scheme: dark)").addEventListener("change", draw);

/* The next look begins when the last one has ended, however long it took. */
const looking = () => watch().then(() => setTimeout(looking, 2000));
fetch("/coast.json").then(reply => reply.json()).then(lines => { page.coast = lines; draw(); });
looking();
