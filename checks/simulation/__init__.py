"""A simulated host for the supervisor, and a judge of what comes of it.

**Simulated**, all in virtual time and by a seed, behind `keeper.supervisor.host.Host`: clocks that
are set, sleeps that a clock counts and sleeps that none counts, boots; the program under
RADIO_NTPD_SERVICE (`program`), receivers (`radios`), the reporter (`helpers`), which die, hang, spin,
close their output and live on; files that a reload reads; pipes (`opened`), UDP sockets (`sockets`), files on
a disk that loses what was not synced (`disk`), refused calls (`refusals`); kill -9 of each process,
of the supervisor at any call, and power cuts at any call. systemd starts the supervisor again after
a second. In calm times a wait may end up to 1.9 s late, as on a host without a free processor.

**A history** (`history`) is a station and a list of events, from a seed or from a text. Faults come
in bursts of one to ten. A burst ends when no fault was in force for a minute.

**Judged** (`judge`, `clients`, `kept`), never by the supervisor's own state:

- No exception leaves the loop, or is caught there as one that nobody foresaw. The loop waits at
  most a fortieth of a second, never for the state folder's disk, and does not spin.
- *The time can be had* where one radio's last 380 pulses in a row were delivered: four minutes that
  are whole, one until the first begins, and 70 s that a kill may take of a log. It can be had for
  500 s after the last of these. A boot, a sleep, a new source, and a start of the supervisor within
  15 minutes of a disk's trouble take it away: then 380 new pulses are needed.
- Where it can be had and the supervisor runs, clients are without the time for at most two seconds
  in a burst of one fault, and until a minute after the last of a burst of more; without a fault for
  at most 50 ms. Both spans begin where the time could be had, or the supervisor was started, last.
- No answer is wrong by 20 ms, but in the tenth of a second after a sleep, in 2.5 s after one of 0.3
  s or more that the real-time clock alone shows, and in 130 s after one that no clock shows (a
  whole minute comes, and the program sees it).
- No sentence says of a run that it doesn't answer after faults that do nothing to it, as where the
  supervisor had no processor.
- A run reads whole pulses of its radio's source and of its own counter, each as it was received.
- A run has its pace and polls for a year, asks no server 15 s before it serves, and has three
  answers by then where they come. It has the leap second file wherever that can be read.
- Marks are up to 15 ms early or late where they are steadied: 200 in a row are within 6 ms of the
  second, none is off by more than 21 ms and a pause that nobody saw, and logs have them as they
  came.
- A run that printed its journal has it on the disk, whole, unless a disk was in trouble or a
  sentence says that it is lost; of one that was killed a sentence says so within 15 s. Without a
  fault none is killed. One that was told to end is gone within ten seconds.
- After a power cut a log has all but its last 70 s. Without one each log has whole lines alone.
- 15 s after the last fault the file for pages names each radio without a pulse for its `stall`, by
  its last pulse, within 3 s; and none that is received.
- A command that gives nothing is started again and received after its `stall` and 75 s. At most 90
  processes are started within a minute. Descriptors stay below a bound; no process, file or
  descriptor is left at the end.
"""
