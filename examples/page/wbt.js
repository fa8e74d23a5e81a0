// The exports of crates/wbt_page, compiled to WebAssembly with a memory of 64 bits. Every number of 64 bits is a BigInt.

// A module with such a memory and nothing else.
const PROBE = new Uint8Array([0, 97, 115, 109, 1, 0, 0, 0, 5, 3, 1, 4, 1]);

export const KINDS = ["free", "go", "exempt", "wait"];

// What a status says, as crates/wbt_calls/src/status.rt has it.
export const STATUSES = [
  "ok",
  "the number of CPUs isn't 1 to 64",
  "the cap isn't 1 to 1024",
  "the moment is 2^62 or more",
  "a count of the task is 2^52 or more",
  "the average isn't 1 to 2^44 - 1, or the rate limit is 0",
  "the context has 2^33 pages or more",
  "the limits of the domain aren't in order",
  "a flag is neither 0 nor 1",
  "the limits of the cgroup's domain aren't in order",
  "the context's threshold is above its domain's",
  "a percentage is above 100, or bytes are above 2^48",
  "a number of the sample is out of its range",
  "there are more than 1024 writers",
  "there are more than 64 contexts",
  "a limit is above 4294967295",
  "fewer than 200 ms passed since the estimate",
  "the fraction of completed writes isn't one",
  "a share is above 100 percent, or the least one above the greatest",
  "the cgroup's pages are above 2^40",
];

export function hasWideMemory() {
  return typeof WebAssembly === "object" && WebAssembly.validate(PROBE);
}

// Loads the module. What goes in and out lies in a page of memory of its own, which the module's code doesn't know.
export async function load(url) {
  const answer = await fetch(url);
  if (!answer.ok) throw new Error(`${url}: ${answer.status}`);
  const { instance } = await WebAssembly.instantiate(await answer.arrayBuffer(), {});
  const calls = instance.exports;
  const base = BigInt(calls.memory.grow(1n)) * 65536n;
  return new Laws(calls, base);
}

class Laws {
  constructor(calls, base) {
    this.calls = calls;
    this.base = base;
  }

  // Numbers from so many words after the start of the page on.
  words(first, count) {
    return new BigUint64Array(this.calls.memory.buffer, Number(this.base) + 8 * first, count);
  }

  at(first) {
    return this.base + BigInt(8 * first);
  }

  hold(status) {
    if (status !== 0) throw new RangeError(STATUSES[status] ?? `status ${status}`);
  }

  // The one number of an answer.
  told(status) {
    this.hold(status);
    return this.words(64, 1)[0];
  }

  // Of the machine, or of a cgroup where the machine has globalAvail pages.
  thresholds(ratio, bgRatio, avail, globalAvail) {
    this.words(0, 4).set([ratio, bgRatio, 0n, 0n]);
    this.hold(globalAvail === undefined
      ? this.calls.wbt_global_thresholds(avail, this.at(0), this.at(64))
      : this.calls.wbt_cgroup_thresholds(avail, globalAvail, this.at(0), this.at(64)));
    const [thresh, bg] = this.words(64, 2);
    return { thresh, bg };
  }

  cgroupAvailable(filepages, headroom, dirty, avail, globalDirty) {
    return this.told(this.calls.wbt_cgroup_available(filepages, headroom, dirty, avail, globalDirty, this.at(64)));
  }

  contextThreshold(thresh, share) {
    this.words(0, 5).set([share.num, share.den, share.sumMin, share.min, share.max]);
    return this.told(this.calls.wbt_context_threshold(thresh, this.at(0), this.at(64)));
  }

  contextBackground(wbThresh, bg, thresh) {
    return this.told(this.calls.wbt_context_background(wbThresh, bg, thresh, this.at(64)));
  }

  // A domain lies where the calls that take one look for it.
  putDomain(domain) {
    this.words(0, 5).set([domain.thresh, domain.bg, domain.hard, domain.dirty, domain.wbThresh]);
  }

  freerun(domain) {
    this.putDomain(domain);
    return BigInt.asUintN(64, this.calls.wbt_freerun(this.at(0)));
  }

  setpoint(domain) {
    this.putDomain(domain);
    return BigInt.asUintN(64, this.calls.wbt_setpoint(this.at(0)));
  }

  ratio(strict, domain, wbDirty, avg) {
    this.putDomain(domain);
    return this.told(strict
      ? this.calls.wbt_strict_ratio(this.at(0), wbDirty, this.at(64))
      : this.calls.wbt_ratio(this.at(0), wbDirty, avg, this.at(64)));
  }

  longestPause(wbDirty, avg) {
    return this.told(this.calls.wbt_longest_pause(wbDirty, avg, this.at(64)));
  }

  leastPause(wbDirty, avg, ratelimit, rate) {
    this.hold(this.calls.wbt_least_pause(wbDirty, avg, ratelimit, rate, this.at(64)));
    const [pages, pause] = this.words(64, 2);
    return { pages, pause };
  }

  bound(hard, cpus, writers, cap, contexts) {
    return this.told(this.calls.wbt_bound(hard, Number(cpus), writers, cap, contexts, this.at(64)));
  }

  strictContextBound(most, cpus, writers, cap) {
    return this.told(this.calls.wbt_strict_context_bound(most, Number(cpus), writers, cap, this.at(64)));
  }

  decide(strict, check) {
    const { domains: [global, cgroup], task } = check;
    const numbers = (domain) => domain ? [domain.thresh, domain.bg, domain.hard, domain.dirty, domain.wbThresh] : [0n, 0n, 0n, 0n, 0n];
    this.words(0, 20).set([
      ...numbers(global), ...numbers(cgroup), cgroup ? 1n : 0n,
      check.wbDirty, check.cpus, check.cap, check.avg, check.ratelimit,
      task.dirtied, task.allowance, task.pausedWhen, check.now,
    ]);
    const call = strict ? this.calls.wbt_strict_decide : this.calls.wbt_decide;
    this.hold(call(this.at(0), this.at(64)));
    const [kind, pause, left, dirtied, allowance, pausedWhen, exceeded] = this.words(64, 7);
    return { kind: KINDS[Number(kind)], pause, left, task: { dirtied, allowance, pausedWhen }, exceeded: exceeded === 1n };
  }
}
