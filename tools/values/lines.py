"""The file of what each line of a trace and of a journal is as a value, and which of its names a text uses."""
from __future__ import annotations

import re

LINES = """-- thresholds in percent of the available pages, or in bytes where these aren't 0
abbrev pub settings : (ratio bg_ratio bytes bg_bytes : ℕ) → Settings
settings ratio bg_ratio bytes bg_bytes = record { ratio = ratio; bg_ratio = bg_ratio; bytes = bytes; bg_bytes = bg_bytes }

-- how many pages are available from a tick on
abbrev pub avail : (from pages : ℕ) → Avail
avail from pages = record { from = from; pages = pages }

-- a device that writes so many pages a second, with its least and greatest share in percent
abbrev pub device : (rate least most : ℕ) → Device
device rate least most = record { rate = rate; min = least; max = most; strict = false; chunk = None; cyclic = false }

-- a device whose contexts keep to the strict law
abbrev pub strict_device : (rate least most : ℕ) → Device
strict_device rate least most = record { rate = rate; min = least; max = most; strict = true; chunk = None; cyclic = false }

-- a device whose scans end with so many pages at the latest
abbrev pub chunked_device : (rate least most pages : ℕ) → Device
chunked_device rate least most pages = record { rate = rate; min = least; max = most; strict = false; chunk = Some pages; cyclic = false }

-- a cgroup of so many file pages, with its headroom in pages
abbrev pub cgroup : (filepages headroom : ℕ) → Cgroup
cgroup filepages headroom = record { filepages = filepages; headroom = headroom }

-- a context of a device, in a cgroup or in the global domain alone, which is 0
abbrev pub context : (device domain : ℕ) → Context
context device domain = record { device = device; domain = domain; expire = None; estimate = None }

-- a context whose inodes are due for their age after so many hundredths of a second
abbrev pub ageing_context : (device domain expire : ℕ) → Context
ageing_context device domain expire = record { device = device; domain = domain; expire = Some expire; estimate = None }

-- a context whose first estimate the trace gives, in pages a second
abbrev pub given_context : (device domain bandwidth average ratelimit : ℕ) → Context
given_context device domain bandwidth average ratelimit = record {
  device = device;
  domain = domain;
  expire = None;
  estimate = Some (record { bandwidth = bandwidth; average = average; ratelimit = ratelimit });
}

-- an inode of a context, with its first page and how many it has
abbrev pub inode : (context first pages : ℕ) → Inode
inode context first pages = record { context = context; first = first; pages = pages }

-- a task on a CPU
abbrev pub on_cpu : (cpu : ℕ) → TaskLine
on_cpu cpu = record { cpu = cpu; pace = None }

-- a flusher of a device on a CPU
abbrev pub flusher : (device cpu : ℕ) → FlusherLine
flusher device cpu = record { device = device; cpu = cpu }

-- the timer publishes limits of a domain, in pages
abbrev pub limits : (domain now thresh bg hard : ℕ) → TimerEntry
limits domain now thresh bg hard = timer.Limits domain now (record { thresh = thresh; bg = bg; hard = hard })

-- a CPU folds its own number of a counter, under a version
abbrev pub folded : (counter : Counter) (version : ℕ) (delta : ℤ) → Entry
folded counter version delta = entry.Folded (record { counter = counter; version = version; delta = delta })

-- what a check read of a domain: limits by their version, count by its version, and fraction of a period
abbrev pub read : (domain triple thresh bg hard version : ℕ) (value : ℤ) (period num den : ℕ) → DomainLine
read domain triple thresh bg hard version value period num den = record {
  domain = domain;
  triple = triple;
  limits = record { thresh = thresh; bg = bg; hard = hard };
  count = record { version = version; value = value };
  share = record { period = period; num = num; den = den };
}

-- a check of a task's writer of a context: what it read, and what it decided
abbrev pub check : (task context now : ℕ) (global : DomainLine) (cgroup : Option DomainLine) (version : ℕ) (value : ℤ)
    (estimate : ℕ) (kind : Kind) (pause left dirtied allowance paused_when : ℕ) → CheckEntry
check task context now global cgroup version value estimate kind pause left dirtied allowance paused_when = record {
  task = task;
  context = context;
  now = now;
  global = global;
  cgroup = cgroup;
  count = record { version = version; value = value };
  estimate = estimate;
  decision = record {
    kind = kind;
    pause = pause;
    left = left;
    task = record { nr_dirtied = dirtied; nr_dirtied_pause = allowance; paused_when = paused_when };
    exceeded = false;
  };
}

-- an estimate of a context, its rates in pages a second
abbrev pub estimate : (context version bw avg ratelimit balanced written dirtied at : ℕ) → EstEntry
estimate context version bw avg ratelimit balanced written dirtied at = record {
  context = context;
  estimate = record {
    version = version;
    bw = bw;
    avg = avg;
    ratelimit = ratelimit;
    balanced = balanced;
    written_stamp = written;
    dirtied_stamp = dirtied;
    at = at;
  };
}

-- a CPU's part of a journal
abbrev pub part : (entries : List Entry) (checks : List CheckEntry) (estimates : List EstEntry) → CpuJournal
part entries checks estimates = record { entries = entries; checks = checks; estimates = estimates }

-- a page that is left, with its two bits: dirty is 1, under writeback 2
abbrev pub left : (page word : ℕ) → Left
left page word = record { page = page; word = word }
"""


def lines_used(text: str) -> str:
    """The import of the lines that a text uses, as values."""
    names = re.findall(r"^abbrev pub (\w+) :", LINES, re.MULTILINE)
    used = [name for name in names if re.search(rf"(?<![.\w]){name} (?!=)", text)]
    return f"use Rattle.wbt_judged.specs.Lines.{{{', '.join(used)}}}\n"
