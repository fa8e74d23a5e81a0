// The page: sliders in, the curve and the decision out.
import { hasWideMemory, load } from "./wbt.js";

const NOW = 10000n;
const CPUS = 4n;
const CAP = 1024n;
const STEPS = 240;
const WIDTH = 640;
const HEIGHT = 240;
const find = (id) => document.getElementById(id);
const names = ["avail", "ratio", "bg", "rate", "limit", "dirty", "context", "part", "most", "task", "since", "filepages", "headroom", "charged"];
const flags = ["strict", "cgroup"];
const least = (one, other) => (one < other ? one : other);

// A domain whose hard limit stands at its threshold, and the context in it.
function domainOf(laws, { thresh, bg }, dirty, share) {
  return { thresh, bg, hard: thresh, dirty, wbThresh: laws.contextThreshold(thresh, share) };
}

// What the sliders say: a check of the machine's domain, and of the cgroup's where there is one. A context has no more pages than a domain.
function read(laws) {
  const value = Object.fromEntries(names.map((name) => [name, BigInt(find(name).value)]));
  const share = { num: value.part, den: 100n, sumMin: 0n, min: 0n, max: value.most };
  const domains = [domainOf(laws, laws.thresholds(value.ratio, value.bg, value.avail), value.dirty, share)];
  if (find("cgroup").checked) {
    const charged = least(value.charged, value.dirty);
    const available = laws.cgroupAvailable(value.filepages, value.headroom, charged, value.avail, value.dirty);
    domains.push(domainOf(laws, laws.thresholds(value.ratio, value.bg, available, value.avail), charged, share));
  }
  return {
    strict: find("strict").checked,
    check: {
      domains, wbDirty: domains.reduce((pages, { dirty }) => least(pages, dirty), value.context),
      cpus: CPUS, cap: CAP, avg: value.rate, ratelimit: value.limit, now: NOW,
      task: { dirtied: value.task, allowance: value.task, pausedWhen: NOW - value.since },
    },
  };
}

// What the laws say of a domain: its marks, those of the context in it, and its ratio.
function tell(laws, { strict, check }, domain, name) {
  const background = laws.contextBackground(domain.wbThresh, domain.bg, domain.thresh);
  return {
    ...domain, name, background, middle: (domain.wbThresh + background) / 2n,
    freerun: laws.freerun(domain), setpoint: laws.setpoint(domain), ratio: laws.ratio(strict, domain, check.wbDirty, check.avg),
  };
}

// The law text of the check, as ./wbsim law takes it.
function lawText({ domains, task, ...check }) {
  return [
    `cpus ${check.cpus}`, `cap ${check.cap}`, `now ${check.now}`,
    `task ${task.dirtied} ${task.allowance} ${task.pausedWhen}`,
    `estimate ${check.avg} ${check.ratelimit}`, `context ${check.wbDirty}`,
    ...domains.map(({ thresh, bg, hard, dirty, wbThresh }) => `domain ${thresh} ${bg} ${hard} ${dirty} ${wbThresh}`), "",
  ].join("\n");
}

function answerText(told, { kind, pause, left, task }) {
  return `ratio ${told.map(({ ratio }) => ratio).join(" ")}\ndecision ${kind} ${pause} ${left}\ntask ${task.dirtied} ${task.allowance} ${task.pausedWhen}\n`;
}

// Why a writer is free.
function freedom({ strict, check }, told) {
  if (strict) {
    const { middle } = told.reduce((one, other) => (other.middle < one.middle ? other : one));
    return `its context has ${check.wbDirty} pages, no more than its own freerun of ${middle}, and no domain is above its hard limit`;
  }
  return told.map(({ name, dirty, freerun }) => `${dirty} pages of ${name} are dirty, no more than its freerun of ${freerun}`).join(", and ");
}

function sentence(input, told, by, rate, decision) {
  if (decision.kind === "free") {
    return `The writer goes on at once: ${freedom(input, told)}. It checks again after ${decision.task.allowance} pages.`;
  }
  if (decision.kind === "wait") {
    return `The writer waits: its rate is 0, and its context has more pages than its reading may be off. It asks again after ${decision.pause} ms.`;
  }
  if (decision.kind === "exempt") {
    return `The writer's rate is 0, but its context has so few pages that they may be all error: it goes on after ${decision.pause} ms, with ${decision.left} pages.`;
  }
  const pages = input.strict ? `its context has ${input.check.wbDirty} pages` : `${by.dirty} pages of ${by.name} are dirty`;
  const speed = `${pages}, and the ratio of ${by.ratio} lets it dirty ${rate} pages a second`;
  if (decision.pause === 0n) return `The writer goes on with no pause: ${speed}, and none is due yet. It may dirty ${decision.left} pages.`;
  return `The writer pauses for ${decision.pause} ms: ${speed}. Then it may dirty ${decision.left} pages.`;
}

// The numbers behind it, a line for each domain and one for the pauses.
function numbers(laws, { strict, check }, told, rate) {
  const lines = told.map((domain) => `${domain.name}: background ${domain.bg}, freerun ${domain.freerun}, setpoint ${domain.setpoint}, `
    + `threshold and hard limit ${domain.hard}; the context's part: background ${domain.background}, threshold ${domain.wbThresh}; `
    + `ratio ${domain.ratio}; bound with one writer ${laws.bound(domain.hard, CPUS, 1n, CAP, 1n)}`);
  const { pages, pause } = laws.leastPause(check.wbDirty, check.avg, check.ratelimit, rate);
  lines.push(`a pause: ${pause} to ${laws.longestPause(check.wbDirty, check.avg)} ms, and an allowance of ${pages} pages after it`);
  if (strict) {
    const most = told.reduce((pages, { wbThresh }) => (wbThresh > pages ? wbThresh : pages), 0n);
    lines.push(`the strict context: bound with one writer ${laws.strictContextBound(most, CPUS, 1n, CAP)}`);
  }
  return lines.join("\n");
}

// The ratio over the pages of the domain that decides, from none to its hard limit, with the context's pages as they are. On a strict device it
// goes over the context's pages, from none to its threshold, with the domain's pages as they are.
function curve(laws, { strict, check }, by) {
  const end = strict ? by.wbThresh : by.hard;
  const last = end > 0n ? end : 1n;
  const points = [];
  for (let step = 0; step <= STEPS; step++) {
    const pages = (last * BigInt(step)) / BigInt(STEPS);
    points.push([pages, strict ? laws.ratio(true, by, pages, check.avg) : laws.ratio(false, { ...by, dirty: pages }, check.wbDirty, check.avg)]);
  }
  return { points, last };
}

function draw(laws, input, by) {
  const { points, last } = curve(laws, input, by);
  const top = points.reduce((most, [, y]) => (y > most ? y : most), 2048n);
  const x = (pages) => (Number(least(pages, last)) / Number(last)) * WIDTH;
  const y = (value) => HEIGHT - (Number(value) / Number(top)) * HEIGHT;
  find("line").setAttribute("points", points.map(([pages, value]) => `${x(pages).toFixed(1)},${y(value).toFixed(1)}`).join(" "));
  find("point").setAttribute("cx", x(input.strict ? input.check.wbDirty : by.dirty));
  find("point").setAttribute("cy", y(by.ratio));
  const marks = input.strict ? [by.background, by.middle, by.middle] : [by.bg, by.freerun, by.setpoint];
  ["mark-bg", "mark-freerun", "mark-setpoint"].forEach((id, at) => find(id).setAttribute("transform", `translate(${x(marks[at]).toFixed(1)} 0)`));
  find("mark-setpoint").setAttribute("visibility", input.strict ? "hidden" : "visible");
  find("one").setAttribute("y1", y(1024n));
  find("one").setAttribute("y2", y(1024n));
  find("top").textContent = `${top}`;
  find("last").textContent = `${last} pages`;
  find("axis").textContent = `position ratio, 1024ths, over the dirty pages of ${input.strict ? "the context in " : ""}${by.name}`;
}

function show(laws) {
  for (const name of names) find(`${name}-value`).textContent = find(name).value;
  for (const name of ["filepages", "headroom", "charged"]) find(name).disabled = !find("cgroup").checked;
  try {
    const input = read(laws);
    const { check, strict } = input;
    const told = check.domains.map((domain, at) => tell(laws, input, domain, ["the machine", "the cgroup"][at]));
    const by = told.reduce((one, other) => (other.ratio < one.ratio ? other : one));
    const rate = (check.ratelimit * by.ratio) / 1024n;
    const decision = laws.decide(strict, check);
    find("sentence").textContent = sentence(input, told, by, rate, decision);
    find("numbers").textContent = numbers(laws, input, told, rate);
    find("law").textContent = lawText(check);
    find("answer").textContent = answerText(told, decision);
    draw(laws, input, by);
  } catch (error) {
    find("sentence").textContent = `No decision: ${error.message}.`;
    find("answer").textContent = "";
  }
}

async function start() {
  if (!hasWideMemory()) {
    find("sentence").textContent = "This browser has no WebAssembly with a memory of 64 bits, which these laws are compiled for. Chrome has it from 133 on, Firefox from 134 on.";
    document.body.dataset.state = "unable";
    return;
  }
  try {
    const laws = await load("wbt.wasm");
    for (const name of [...names, ...flags]) find(name).addEventListener("input", () => show(laws));
    show(laws);
    document.body.dataset.state = "ready";
  } catch (error) {
    find("sentence").textContent = `The laws are not there (${error.message}): tools/make-page makes wbt.wasm.`;
    document.body.dataset.state = "missing";
  }
}

start();
