//! Commands, and what has to be answered to them, as dumps.
use bean_words::{Op, Reply};
use chronicle_text::{Chronicle, read_text};
use std::alloc::Global;

/// The chronicle that a dump tells of.
pub fn read(alloc: Global, dump: &[u8]) -> Option<Chronicle<Op, Reply>> {
    read_text(alloc, dump).ok()
}

/// Sessions that reserve, lay aside, kick, delay, give back and delete jobs, use, watch, list and pause tubes, wait, end,
/// and ask for reports, while seconds pass.
pub const QUEUE: &[u8] = b"beanpax-dump 1
members 1
S 1 1 reserve
S 2 1 put 0 0 60 6869
A 2 1 INSERTED 1
A 1 1 RESERVED 1 6869
S 1 2 bury 1 7
A 1 2 BURIED
S 2 2 peek-buried
A 2 2 FOUND 1 6869
S 2 3 kick 10
A 2 3 KICKED 1
S 2 4 peek-ready
A 2 4 FOUND 1 6869
S 1 3 delete 1
A 1 3 DELETED
S 2 5 put 1 5 9 61
A 2 5 INSERTED 2
S 2 6 put 2 3 9 62
A 2 6 INSERTED 3
S 2 7 peek-delayed
A 2 7 FOUND 3 62
S 2 8 kick-job 3
A 2 8 KICKED
S 1 4 reserve-with-timeout 0
A 1 4 RESERVED 3 62
S 1 5 touch 3
A 1 5 TOUCHED
S 1 6 release 3 2 0
A 1 6 RELEASED
S 1 7 use b
A 1 7 USING b
S 1 8 watch a
A 1 8 WATCHING 2
S 2 9 list-tubes
A 2 9 OK a b default
S 1 9 list-tubes-watched
A 1 9 OK default a
S 1 10 list-tube-used
A 1 10 USING b
S 1 11 ignore a
A 1 11 WATCHING 1
S 2 10 reserve
A 2 10 RESERVED 3 62
S 2 11 peek 3
A 2 11 FOUND 3 62
S 1 12 reserve-with-timeout 6
S 0 5 tick
A 1 12 RESERVED 2 61
S 0 9 tick
S 2 12 close
S 1 13 delete 3
A 1 13 DELETED
S 1 14 close
S 3 1 reserve
A 3 1 RESERVED 2 61
S 3 2 delete 2
A 3 2 DELETED
S 3 3 delete 2
A 3 3 NOT_FOUND
S 3 4 reserve
S 4 1 reserve-with-timeout 1
S 0 10 tick
A 4 1 TIMED_OUT
S 4 2 pause-tube default 3
A 4 2 PAUSED
S 4 3 put 0 0 9 63
A 4 3 INSERTED 4
S 4 4 pause-tube zz 3
A 4 4 NOT_FOUND
S 4 5 pause-tube default 2
A 4 5 PAUSED
S 0 12 tick
A 3 4 RESERVED 4 63
S 4 6 pause-tube default 9
A 4 6 PAUSED
S 4 7 put 0 0 9 64
A 4 7 INSERTED 5
S 4 8 reserve
S 3 5 pause-tube default 0
A 3 5 PAUSED
A 4 8 RESERVED 5 64
S 4 9 put 3 5 7 65
A 4 9 INSERTED 6
S 4 10 put 5 0 9 66
A 4 10 INSERTED 7
S 5 1 reserve-job 9
A 5 1 NOT_FOUND
S 5 2 reserve-job 6
A 5 2 RESERVED 6 65
S 3 6 reserve-job 6
A 3 6 NOT_FOUND
S 0 14 tick
S 3 7 stats-job 6
A 3 7 DATA -
S 3 8 stats-job 2
A 3 8 NOT_FOUND
S 4 11 stats-tube default
A 4 11 DATA -
S 4 12 stats-tube zz
A 4 12 NOT_FOUND
S 3 9 stats
A 3 9 DATA -
S 3 10 stats-tube default
A 3 10 DATA -
S 3 11 stats
A 3 11 DATA -
end
";

/// The texts of the reports in `QUEUE`, in their order. The dump itself has them empty.
pub const REPORTS: [&[u8]; 5] = [JOB_6, DEFAULT, FIRST_STATS, DEFAULT, SECOND_STATS];

const JOB_6: &[u8] = b"---
id: 6
tube: default
state: reserved
pri: 3
age: 2
delay: 5
ttr: 7
time-left: 5
file: 0
reserves: 1
timeouts: 0
releases: 0
buries: 0
kicks: 0
";

const DEFAULT: &[u8] = b"---
name: default
current-jobs-urgent: 1
current-jobs-ready: 1
current-jobs-reserved: 3
current-jobs-delayed: 0
current-jobs-buried: 0
total-jobs: 7
current-using: 3
current-watching: 3
current-waiting: 0
cmd-delete: 3
cmd-pause-tube: 4
pause: 0
pause-time-left: 0
";

const FIRST_STATS: &[u8] = b"---
current-jobs-urgent: 1
current-jobs-ready: 1
current-jobs-reserved: 3
current-jobs-delayed: 0
current-jobs-buried: 0
cmd-put: 7
cmd-peek: 1
cmd-peek-ready: 1
cmd-peek-delayed: 1
cmd-peek-buried: 1
cmd-reserve: 5
cmd-reserve-with-timeout: 3
cmd-delete: 4
cmd-release: 1
cmd-use: 1
cmd-watch: 1
cmd-ignore: 1
cmd-bury: 1
cmd-kick: 1
cmd-touch: 1
cmd-stats: 1
cmd-stats-job: 2
cmd-stats-tube: 2
cmd-list-tubes: 1
cmd-list-tube-used: 1
cmd-list-tubes-watched: 1
cmd-pause-tube: 5
job-timeouts: 1
total-jobs: 7
max-job-size: 65535
current-tubes: 1
current-connections: 3
current-producers: 1
current-workers: 3
current-waiting: 0
version: \"beanpax 0.1\"
uptime: 14
";

const SECOND_STATS: &[u8] = b"---
current-jobs-urgent: 1
current-jobs-ready: 1
current-jobs-reserved: 3
current-jobs-delayed: 0
current-jobs-buried: 0
cmd-put: 7
cmd-peek: 1
cmd-peek-ready: 1
cmd-peek-delayed: 1
cmd-peek-buried: 1
cmd-reserve: 5
cmd-reserve-with-timeout: 3
cmd-delete: 4
cmd-release: 1
cmd-use: 1
cmd-watch: 1
cmd-ignore: 1
cmd-bury: 1
cmd-kick: 1
cmd-touch: 1
cmd-stats: 2
cmd-stats-job: 2
cmd-stats-tube: 3
cmd-list-tubes: 1
cmd-list-tube-used: 1
cmd-list-tubes-watched: 1
cmd-pause-tube: 5
job-timeouts: 1
total-jobs: 7
max-job-size: 65535
current-tubes: 1
current-connections: 3
current-producers: 1
current-workers: 3
current-waiting: 0
version: \"beanpax 0.1\"
uptime: 14
";

/// Commands of which some are stale, those that have no answer and end no wait: a second that came before, and a command
/// of a session that went on or ended.
pub const STALE: &[u8] = b"beanpax-dump 1
members 1
S 1 1 put 0 4 10 78
A 1 1 INSERTED 1
S 0 5 tick
S 0 5 tick
S 0 3 tick
S 1 2 reserve-with-timeout 0
A 1 2 RESERVED 1 78
S 1 1 put 0 4 10 78
S 2 2 close
S 2 1 reserve
S 3 1 put 0 0 9 79
A 3 1 INSERTED 2
S 3 2 reserve
A 3 2 RESERVED 2 79
end
";

/// What a lost leader got accepted, and another's command that isn't decided.
pub const LOST_LEADER: &[u8] = b"beanpax-dump 1
members 3
S 1 1 put 0 0 9 78
S 2 1 put 0 0 9 79
A 1 1 INSERTED 1
O 1 1
end
";

/// Three jobs are buried and kicked, and each command is answered by two nodes.
pub const KICK: &[u8] = b"beanpax-dump 1
members 3
S 1 1 put 0 0 60 61
A 1 1 INSERTED 1
A 1 1 INSERTED 1
S 1 2 put 0 0 60 62
A 1 2 INSERTED 2
A 1 2 INSERTED 2
S 1 3 put 0 0 60 63
A 1 3 INSERTED 3
A 1 3 INSERTED 3
S 1 4 reserve
A 1 4 RESERVED 1 61
A 1 4 RESERVED 1 61
S 1 5 reserve
A 1 5 RESERVED 2 62
A 1 5 RESERVED 2 62
S 1 6 reserve
A 1 6 RESERVED 3 63
A 1 6 RESERVED 3 63
S 1 7 bury 1 0
A 1 7 BURIED
A 1 7 BURIED
S 1 8 bury 2 0
A 1 8 BURIED
A 1 8 BURIED
S 1 9 bury 3 0
A 1 9 BURIED
A 1 9 BURIED
S 1 10 kick 3
A 1 10 KICKED 3
A 1 10 KICKED 3
O 1 1
O 1 2
O 1 3
O 1 4
O 1 5
O 1 6
O 1 7
O 1 8
O 1 9
O 1 10
end
";

/// A put, a second, a reserve that isn't proposed, and the session's end.
pub const ONE_PUT: &[u8] = b"beanpax-dump 1
members 1
S 1 1 put 0 0 9 78
A 1 1 INSERTED 1
S 0 1 tick
S 1 2 reserve
S 1 3 close
O 1 1
end
";
