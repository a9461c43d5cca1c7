/* Who waits and who wakes: two tasks, two units, two workers and one handler. A comment names the function that the lines stand
 * for, as CRATE/FILE: FUNCTION. What a thread does from one access to what others see to the next is one step, an `atomic`.
 *
 * ROOM is the room of each row and book; FIRST and SECOND are the requests of the tasks. If ALARM is 1, calls of workers run out of
 * memory. A thread that looks again and again waits here until it would find something. If POLLS is 1 it does look, which takes
 * weak fairness. tests/groups/models.py has spin check all this, and find a fault of each mutant. */
#define requests(t) (t == 0 -> FIRST : SECOND)
#define awaited(t) (issued[t] - collected[t])
#define worth(what) (POLLS || (what))

/* excp_system/rows.rt: Rows::new. A request is the number of its task, a notice that of its unit. A post row is a count. */
chan intake[2] = [ROOM] of { byte };
chan notice = [ROOM] of { byte };
byte posts[2];

/* unit_book/book.rt: UnitBook. The status of what is active is pending: a longer program has more turns like any other. */
#define NONE 2
chan waiting[2] = [ROOM] of { byte };
chan out[2] = [ROOM] of { byte };
byte pending[2] = NONE;
bool owes[2], locked[2];
/* excp_system/unit.rt: take */
#define can_take(u) (len(waiting[u]) + len(out[u]) + (pending[u] != NONE) < ROOM && len(intake[u]) > 0)
#define can_start(u) (pending[u] == NONE && len(waiting[u]) > 0) /* unit_book/book.rt: start */
#define is_first(u, t) (out[u]?[t] && (posts[t] < ROOM || !token[t]))
#define has_work(u) (can_take(u) || can_start(u) || owes[u] && len(notice) < ROOM || is_first(u, 0) || is_first(u, 1))
#define is_idle(u) (!can_take(u) && !can_start(u) && pending[u] == NONE && !owes[u] && len(out[u]) == 0)

/* system_threads/client.rt: Client; system_threads/alarm.rt: Alarm. A count below 1 wakes nobody, and is 0. */
byte wanted[2], issued[2], collected[2], tasks_ended, workers_ended;
bool token[2], raised, lacked, stop, finished;

inline want(t) { /* system_threads/alarm.rt: want. For one post, or for two of the last */
    if :: wanted[t] = 1 :: issued[t] == requests(t) && awaited(t) > 1 -> wanted[t] = 2 fi
}

/* job_run/job.rt: send, collect, make_room; system_threads/client.rt: excp, next_of */
proctype task(byte me) {
    bool is_wanted;
next:
    if
    :: atomic { issued[me] < requests(me) && nfull(intake[0]) -> intake[0]!me; issued[me]++ } goto next
    :: atomic { issued[me] < requests(me) && nfull(intake[1]) -> intake[1]!me; issued[me]++ } goto next
    :: issued[me] < requests(me) && full(intake[0]) && worth(awaited(me) > 0) /* it collects one, and tries again */
    :: issued[me] < requests(me) && full(intake[1]) && worth(awaited(me) > 0)
    :: issued[me] == requests(me)
    fi;
look: /* excp_system/task.rt: take_post */
    if
    :: atomic { posts[me] > 0 -> posts[me]--; collected[me]++; is_wanted = false } goto next
    :: posts[me] == 0
    fi;
    if
    :: atomic { raised || awaited(me) == 0 && issued[me] == requests(me) -> is_wanted = false } goto done
    :: atomic { !raised && awaited(me) == 0 && issued[me] < requests(me) -> is_wanted = false } goto next
    :: atomic { !raised && awaited(me) > 0 && !is_wanted -> want(me); is_wanted = true } goto look
    :: !raised && awaited(me) > 0 && is_wanted
    fi;
park: /* Parker::park */
    atomic { token[me] -> token[me] = false; is_wanted = false } goto look;
done:
    tasks_ended++
}

/* excp_system/workers.rt: send_back. It ends the turn. excp_system/unit.rt: deliver */
inline send_back(u) {
    if
    :: atomic { out[u]?[0] && posts[0] < ROOM -> out[u]?who; posts[0]++ } delivered(u)
    :: atomic { out[u]?[1] && posts[1] < ROOM -> out[u]?who; posts[1]++ } delivered(u)
    :: atomic { out[u]?[0] && posts[0] == ROOM -> who = 0 } row_is_full(u)
    :: atomic { out[u]?[1] && posts[1] == ROOM -> who = 1 } row_is_full(u)
    :: atomic { empty(out[u]) -> locked[u] = false }
    fi
}
inline delivered(u) { /* system_threads/alarm.rt: delivered. It counts, and then unparks */
    if
    :: atomic { wanted[who] == 1 -> wanted[who] = 0 } atomic { token[who] = true; who = 0; locked[u] = false }
    :: atomic { wanted[who] != 1 -> wanted[who] = wanted[who] / 2; who = 0; locked[u] = false }
    fi
}
inline row_is_full(u) { /* system_threads/alarm.rt: row_is_full */
    atomic { token[who] = true; who = 0; locked[u] = false }
}

/* excp_system/workers.rt: work, pass_over, serve_unit, handle; system_threads/crew.rt: start. Worker 0 is the handler as well. */
proctype worker(byte unit) {
    byte who, other;
    bool rests;
pass:
    if
    :: stop -> goto done
    :: atomic { !stop && rests && worth(has_work(unit)) -> rests = false } /* excp_system/rota.rt: is_due, call_all */
    :: atomic { ALARM && !stop && !raised && !locked[unit] -> locked[unit] = true; raised = true }
        token[0] = true; /* system_threads/alarm.rt: lack_memory */
        atomic { token[1] = true; locked[unit] = false }
    :: atomic { !stop && !rests && !locked[unit] && worth(has_work(unit) || is_idle(unit)) ->
        rests = is_idle(unit); /* excp_system/rota.rt: note */
        if :: can_take(unit) -> intake[unit]?who; waiting[unit]!who :: else fi;
        if :: can_start(unit) -> waiting[unit]?who; pending[unit] = who; owes[unit] = true :: else fi; /* unit_book/book.rt: run */
        who = 0;
        if :: !owes[unit] && empty(out[unit]) -> goto notices :: owes[unit] || len(out[unit]) > 0 -> locked[unit] = true fi }
        if /* excp_system/unit/book_calls.rt: notify */
        :: atomic { owes[unit] && nfull(notice) -> notice!unit; owes[unit] = false }
        :: atomic { owes[unit] && full(notice) -> owes[unit] = true }
        :: !owes[unit]
        fi;
        send_back(unit)
    :: unit == 0 && nempty(notice)
    fi;
notices: /* excp_system/workers.rt: serve_subclass; excp_system/isc.rt: next */
    if
    :: atomic { unit == 0 && nempty(notice) -> notice?other }
        if /* excp_system/unit/book_calls.rt: interrupt. Out of memory, it owes a notice */
        :: atomic { !locked[other] && pending[other] != NONE ->
            locked[other] = true; out[other]!pending[other]; pending[other] = NONE }
        :: atomic { ALARM && !locked[other] && pending[other] != NONE && !lacked ->
            locked[other] = true; lacked = true; owes[other] = true }
        fi;
        send_back(other); other = 0; goto notices
    :: unit != 0 || empty(notice) -> goto pass
    fi;
done:
    workers_ended++
}

/* system_threads/run.rt: run_beside; post_ledger/unfinished.rt: finish */
init {
    byte who, u;
    atomic { run worker(0); run worker(1); run task(0); run task(1) }
    tasks_ended == 2; /* system_threads/run.rt: run_all */
    stop = true;
    workers_ended == 2;
    atomic { /* post_ledger/drain.rt: drain */
        do
        :: awaited(0) + awaited(1) == 0 -> break
        :: else ->
            for (u : 0 .. 1) {
                do /* post_ledger/drain.rt: receive, work */
                :: can_take(u) -> intake[u]?who; waiting[u]!who
                :: can_start(u) -> waiting[u]?pending[u]
                :: pending[u] != NONE -> out[u]!pending[u]; pending[u] = NONE
                :: else -> break
                od; /* post_ledger/drain.rt: give_back. After both units: gather_all */
                do
                :: out[u]?<who> -> if :: posts[who] < ROOM -> out[u]?who; posts[who]++ :: else -> break fi
                :: empty(out[u]) -> break
                od
            }
            for (u : 0 .. 1) { collected[u] = collected[u] + posts[u]; posts[u] = 0 }
        od
    }
    finished = true
}
ltl ends { <> finished }
