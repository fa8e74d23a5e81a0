"use strict";

// Draws a report from its content. All parts of the figure have one axis from left to right; colours are those of the style sheet.

const report = JSON.parse(document.getElementById("content").textContent);
const root = document.documentElement;
const byId = id => document.getElementById(id);
const plot = byId("plot"), pointer = byId("pointer"), legends = byId("legends");

const TOP = 34, BOTTOM = 52, GAP = 44, LEFT = 72; // dots
const TIP = 76; // characters of a line beside the pointer
const FEW = 400; // up to so many checks are drawn larger
const PARTED = 7; // dots of a bar from which on an edge parts it from the next one
const CONFIG = {
  displaylogo: false, responsive: true, displayModeBar: true,
  modeBarButtonsToRemove: ["select2d", "lasso2d", "hoverClosestCartesian", "hoverCompareCartesian", "toggleSpikelines"],
};

const hidden = new Set(); // names of curves that are not shown, each with its panel
const log = new Set(report.panels.flatMap((panel, at) => panel.is_log ? [at] : [])); // panels with a log scale
let kept = false; // whether the check below stays

// ---- words

function element(name, text, className) {
  const made = document.createElement(name);
  if (text !== undefined) made.textContent = text;
  if (className) made.className = className;
  return made;
}

function color(role) {
  return getComputedStyle(root).getPropertyValue("--" + role).trim();
}

function wrapped(text) {
  const lines = [""];
  for (const word of text.split(" ")) {
    const last = lines[lines.length - 1];
    if (last && last.length + 1 + word.length > TIP) lines.push(word);
    else lines[lines.length - 1] = last ? last + " " + word : word;
  }
  return lines;
}

const tips = report.checks.map(check => [...wrapped(check.head), ...wrapped(check.sentence)]
  .map(line => line.replace(/&/g, "&amp;").replace(/</g, "&lt;")).join("<br>"));

function moment(place) {
  const axis = report.axis;
  if (axis.second === 1) return place.toFixed(4) + " s";
  const whole = Math.floor(place);
  return whole + " " + axis.unit + ", " + (whole / axis.second).toFixed(3) + " s";
}

// ---- the figure

function axisName(letter, at) {
  return at ? letter + (at + 1) : letter;
}

function tracesOf(panel, at) {
  const shared = {xaxis: "x", yaxis: axisName("y", at), showlegend: false};
  const ofCheck = of => ({
    customdata: of.check, hovertext: of.check.map(number => tips[number]), hovertemplate: "%{hovertext}<extra></extra>"});
  const lines = panel.lines.map(of => ({
    ...shared, type: "scatter", mode: "lines", name: of.name, x: of.x, y: of.y, hoverinfo: "skip",
    line: {shape: "hv", dash: of.dash, width: of.width, color: color(of.role)}}));
  const bars = panel.bars.map(of => ({
    ...shared, ...ofCheck(of), type: "bar", name: of.name, x: of.x, width: of.length, offset: 0, base: of.foot,
    y: of.height.map(height => -height), marker: {color: color(of.role), line: {color: color("ground"), width: edgeOf(of.length)}}}));
  const dots = panel.dots.map(of => ({
    ...shared, ...ofCheck(of), type: "scatter", mode: "markers", name: of.name, x: of.x, y: of.y,
    marker: {symbol: of.symbol, color: color(of.role), size: panel.rows.length && of.x.length <= FEW ? 6 : 4,
             line: {width: of.symbol.includes("open") ? 1 : 0}}}));
  const inOrder = panel.rows.length ? [...bars, ...dots] : [...dots, ...lines]; // what comes last lies on top
  return inOrder.map(trace => ({...trace, visible: !hidden.has(at + " " + trace.name)}));
}

function rowAxis(panel) {
  const apart = Math.max(1, Math.ceil(panel.rows.length * 13 / panel.height));
  const rows = panel.rows.map((_, row) => row).filter(row => row % apart === 0);
  return {
    range: [panel.rows.length - 0.45, -0.55], fixedrange: true, tickvals: rows, ticktext: rows.map(row => panel.rows[row]),
    showgrid: false, zeroline: false, automargin: true};
}

function numberAxis(panel, at) {
  const isLog = log.has(at);
  return {
    type: isLog ? "log" : "linear", rangemode: "tozero", ...(panel.top && !isLog ? {range: [0, panel.top]} : {}), zeroline: false,
    gridcolor: color("grid"), exponentformat: "none", separatethousands: true, automargin: true,
    title: {text: panel.unit + (isLog ? " (log scale, without 0)" : ""), font: {size: 12}}};
}

function layoutOf() {
  const heights = report.panels.map(panel => panel.height);
  const inner = heights.reduce((sum, height) => sum + height, 0) + GAP * (heights.length - 1);
  const layout = {
    height: inner + TOP + BOTTOM, margin: {l: LEFT, r: 14, t: TOP, b: BOTTOM}, paper_bgcolor: color("ground"),
    plot_bgcolor: color("ground"), font: {color: color("text"), size: 12}, barmode: "overlay", bargap: 0, hovermode: "closest",
    hoverdistance: 12, dragmode: "zoom", uirevision: "kept", annotations: [],
    hoverlabel: {align: "left", bgcolor: color("raised"), bordercolor: color("edge"), font: {color: color("text"), size: 12}},
    xaxis: {
      range: [report.axis.first, report.axis.last + (report.axis.last - report.axis.first) * 0.01],
      anchor: axisName("y", heights.length - 1), title: {text: report.axis.name, font: {size: 12}, standoff: 6},
      gridcolor: color("grid"), zeroline: false, exponentformat: "none", separatethousands: true}};
  let top = 0;
  report.panels.forEach((panel, at) => {
    const axis = panel.rows.length ? rowAxis(panel) : numberAxis(panel, at);
    layout[axisName("yaxis", at)] = {
      ...axis, domain: [1 - (top + panel.height) / inner, 1 - top / inner], anchor: "x", linecolor: color("edge"), showline: true};
    layout.annotations.push({
      text: "<b>" + panel.title + "</b>", x: 0, xref: "paper", xanchor: "left", y: 1 - top / inner, yref: "paper", yanchor: "bottom",
      showarrow: false, font: {size: 12.5}});
    top += panel.height + GAP;
  });
  return layout;
}

function paint() {
  paintLegends();
  return Plotly.react(plot, report.panels.flatMap(tracesOf), layoutOf(), CONFIG);
}

// Bars have edges where they are broad enough for these. The edges follow the zoom.
function partBars() {
  const bars = plot.data.flatMap((trace, at) => trace.type === "bar" && trace.marker.line.width !== edgeOf(trace.width) ? [at] : []);
  if (bars.length) Plotly.restyle(plot, {"marker.line.width": bars.map(at => edgeOf(plot.data[at].width))}, bars);
}

function edgeOf(lengths) {
  const area = plot.querySelector(".nsewdrag");
  const width = area ? area.getBoundingClientRect().width : plot.clientWidth - LEFT;
  const [from, to] = plot.layout ? plot.layout.xaxis.range : [report.axis.first, report.axis.last];
  const middle = [...lengths].sort((one, other) => one - other)[lengths.length >> 1];
  return middle * width / (to - from) >= PARTED ? 1 : 0;
}

// ---- what stands beside it

const DASHES = {solid: "", dash: "6 4", dot: "2 3", dashdot: "6 3 2 3"};

function swatch(of, kind) {
  const made = element("span");
  const shape = kind === "lines" ? `<line x1="0" y1="6" x2="26" y2="6" stroke="${color(of.role)}" stroke-width="${of.width}"
      stroke-dasharray="${DASHES[of.dash] || ""}"/>`
    : kind === "bars" ? `<rect x="6" y="1" width="14" height="10" fill="${color(of.role)}"/>`
    : of.symbol.includes("open") ? `<circle cx="13" cy="6" r="3.5" fill="none" stroke="${color(of.role)}"/>`
    : `<circle cx="13" cy="6" r="3.5" fill="${color(of.role)}"/>`;
  made.innerHTML = `<svg width="26" height="12">${shape}</svg>`;
  return made;
}

function legendRow(of, kind, at) {
  const row = element("div", undefined, hidden.has(at + " " + of.name) ? "off" : "");
  row.append(swatch(of, kind), element("span", of.name, "name"));
  if (kind === "lines") {
    const value = element("span", "", "value");
    value.line = of;
    row.append(value);
  }
  row.addEventListener("click", () => {
    const key = at + " " + of.name;
    if (!hidden.delete(key)) hidden.add(key);
    paint();
  });
  return row;
}

function logButton(at) {
  const button = element("button", "log", log.has(at) ? "on" : "");
  button.type = "button";
  button.addEventListener("click", () => {
    if (!log.delete(at)) log.add(at);
    Plotly.relayout(plot, {[axisName("yaxis", at) + ".autorange"]: true}).then(paint); // the range of one scale is none of the other
  });
  return button;
}

function paintLegends() {
  legends.replaceChildren();
  let top = TOP;
  report.panels.forEach((panel, at) => {
    const block = element("div", undefined, "legend");
    block.style.top = top + "px";
    block.style.maxHeight = panel.height + GAP - 6 + "px";
    block.append(element("b", panel.title));
    for (const kind of ["lines", "bars", "dots"]) for (const of of panel[kind]) block.append(legendRow(of, kind, at));
    if (!panel.rows.length) block.append(logButton(at));
    legends.append(block);
    top += panel.height + GAP;
  });
}

function valueAt(line, place) {
  let low = 0, high = line.x.length;
  while (low < high) {
    const middle = (low + high) >> 1;
    if (line.x[middle] <= place) low = middle + 1;
    else high = middle;
  }
  return low ? String(line.y[low - 1]) : "";
}

function point(event) {
  const area = plot.querySelector(".nsewdrag");
  if (!area) return;
  const box = area.getBoundingClientRect(), [from, to] = plot.layout.xaxis.range;
  const share = (event.clientX - box.left) / box.width;
  const isIn = share >= 0 && share <= 1;
  pointer.style.display = isIn ? "block" : "none";
  if (!isIn) return;
  const place = Number(from) + share * (to - from);
  pointer.style.left = event.clientX - byId("figure").getBoundingClientRect().left + "px";
  const label = element("span", moment(place), share > 0.2 ? "left" : "");
  label.style.top = event.clientY - byId("figure").getBoundingClientRect().top - 10 + "px";
  pointer.replaceChildren(label);
  for (const value of legends.querySelectorAll(".value")) value.textContent = valueAt(value.line, place);
}

// ---- the check below

function show(number) {
  const check = report.checks[number];
  byId("check-head").textContent = check.head;
  byId("check-sentence").textContent = check.sentence;
  byId("check-why").textContent = check.why.join("\n");
}

function listen() {
  plot.on("plotly_hover", event => { if (!kept) show(event.points[0].customdata); });
  plot.on("plotly_click", event => {
    kept = !kept;
    if (kept) show(event.points[0].customdata);
    byId("check").classList.toggle("kept", kept);
  });
  plot.on("plotly_relayout", partBars);
  byId("figure").addEventListener("mousemove", point);
  byId("figure").addEventListener("mouseleave", () => { pointer.style.display = "none"; });
}

// ---- tables and texts

function tableOf(of) {
  const table = element("table"), isNumber = at => of.rows.length > 0 && of.rows.every(row => /^[\d.]+$/.test(row[at]));
  const head = table.createTHead().insertRow();
  of.head.forEach((name, at) => head.append(element("th", name, isNumber(at) ? "number" : "")));
  const body = table.createTBody();
  for (const cells of of.rows) {
    const row = body.insertRow();
    cells.forEach((cell, at) => row.append(element("td", cell, isNumber(at) ? "number" : "")));
  }
  return table;
}

function foldable(title, content, isOpen) {
  const made = element("details");
  made.open = isOpen;
  const wide = element("div", undefined, "wide");
  wide.append(content);
  made.append(element("summary", title), wide);
  return made;
}

function fill() {
  byId("facts").textContent = report.facts.join(" · ");
  for (const table of report.tables) byId("tables").append(foldable(table.title, tableOf(table), table.is_open));
  for (const [title, text] of report.texts) byId("texts").append(foldable(title, element("pre", text), false));
  for (const note of report.notes) byId("notes").querySelector("ul").append(element("li", note));
}

// ---- light and dark

const system = matchMedia("(prefers-color-scheme: dark)");
let chosen = null; // by the switch; else it is as the system has it

function theme() {
  return chosen || (system.matches ? "dark" : "light");
}

function repaint() {
  root.dataset.theme = theme();
  byId("switch").textContent = theme() === "dark" ? "Light" : "Dark";
  return paint();
}

byId("switch").addEventListener("click", () => {
  chosen = theme() === "dark" ? "light" : "dark";
  repaint();
});
system.addEventListener("change", repaint);

fill();
repaint().then(listen);
