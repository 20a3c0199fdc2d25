/* The waiting of idle workers (docs/WORKERS.md, rule 5) for spin: `step` of examples/workers.c and of rust/wivakkol/examples/workers.rs, line by line, on a few small tables. tests/waiting.py
 * writes the tables (tables.pml: the sizes, `a_table` and `the_order`), runs spin over every interleaving, and says what is asked.
 *
 * A step of a worker is one of: take the lock; the turn; the free of a turn, or a signal, or the broadcast, inside the lock; wait, which gives the lock back; give the lock back; count a draw;
 * make it, or a hand-over. Between any two of them any other worker may come. What is left of the program is that a woken worker asks for the lock again, and takes a turn.
 *
 * STAYS_AWAY: a worker whose turn has left it without a thread may take no turn any more, as one that the system stops; one at least goes on.
 * WOKEN: so many times in a run a waiting worker wakes without a signal, as condition variables may.
 * Faults, each on its own: NO_FORK_SIGNAL, NO_END_SIGNAL, NO_QUOTA_SIGNAL, NO_BROADCAST, and WAIT_OUTSIDE: the lock is given back before the worker counts as waiting. */
#include "tables.pml"

#define UNBORN 0
#define READY 1
#define HELD 2
#define WAITING 3
#define ENDED 4
#define NOBODY 255

/* what a turn said: refused, idle, quota and wait, or the kind of the action that is done */
mtype = { refused, idle, quota, wait, end_, work_, alloc_, free_, fork_, join_ };

/* the table: each thread's first action, an action's kind and argument, who forks a thread; and the threads in serial order of their ends */
byte first[THREADS], parent[THREADS], order[THREADS], threads, workers, given;
mtype kind[ACTIONS];
byte argument[ACTIONS];

/* the run */
byte status[THREADS], next[THREADS], holds[WORKERS], left[WORKERS], held, highest;

/* real memory */
byte drawn[THREADS], real;

/* the lock's owner; who waits on the condition variable, and has not been woken */
byte lock = NOBODY;
bool waits[WORKERS];
byte away, woken = WOKEN;

inline released(w, x) {
    status[holds[w]] = x;
    holds[w] = NOBODY;
    left[w] = 0;
}

/* worker w's turn: `said`, of thread t with action a and its argument x */
inline turn(w) {
    d_step {
        said = idle;
        if
        :: status[0] == ENDED -> said = refused
        :: else ->
            if
            :: holds[w] == NOBODY ->
                i = 0;
                do
                :: i < threads && status[order[i]] != READY -> i++
                :: else -> break
                od;
                if
                :: i < threads -> holds[w] = order[i]; left[w] = given; status[order[i]] = HELD
                :: else
                fi
            :: else
            fi;
            if
            :: holds[w] != NOBODY ->
                t = holds[w];
                a = next[t];
                x = argument[a];
                said = kind[a];
                if
                :: said == work_ -> next[t]++
                :: said == alloc_ && x <= left[w] ->
                    next[t]++;
                    left[w] = left[w] - x;
                    held = held + x;
                    highest = (held > highest -> held : highest)
                :: said == alloc_ && x > left[w] -> said = quota; released(w, READY)
                :: said == free_ -> next[t]++; held = held - x
                :: said == fork_ -> next[t]++; status[x] = READY; released(w, READY)
                :: said == join_ && status[x] == ENDED -> next[t]++
                :: said == join_ && status[x] != ENDED -> said = wait; released(w, WAITING)
                :: said == end_ ->
                    released(w, ENDED);
                    if
                    :: t != 0 && status[parent[t]] == WAITING && argument[next[parent[t]]] == t -> status[parent[t]] = READY
                    :: else
                    fi
                fi
            :: else
            fi
        fi;
        i = 0;
        printf("turn %d %e %d %d\n", w, said, t, a)
    }
}

/* any one that waits is woken, or nobody where none does */
inline signal() {
    if
    :: waits[0] -> waits[0] = false
    :: waits[1] -> waits[1] = false
#if WORKERS > 2
    :: waits[2] -> waits[2] = false
#endif
    :: else
    fi
}

/* nobody sleeps over a ready thread: where one waits, as many are awake without a thread, on their way to a turn, as threads are ready */
inline all_looked_after(w) {
    d_step {
        i = 0;
        n = 0;
        sleeping = false;
        do
        :: i < threads -> n = n + (status[i] == READY); i++
        :: else -> break
        od;
        i = 0;
        do
        :: i < workers ->
            sleeping = sleeping || waits[i];
            n = n - (n > 0 && holds[i] == NOBODY && !waits[i]);
            i++
        :: else -> break
        od;
#ifndef STAYS_AWAY
        assert(!sleeping || n == 0);
#endif
        i = 0;
        n = 0;
        sleeping = false
    }
}

proctype worker(byte w) {
    mtype said;
    byte t, a, x, i, n;
    bool sleeping;

again:
    atomic { lock == NOBODY -> lock = w };
    turn(w);
    if
    :: said == refused ->
        assert(real == held);
#ifndef NO_BROADCAST
        d_step { waits[0] = false; waits[1] = false;
#if WORKERS > 2
            waits[2] = false
#endif
        };
#endif
        lock = NOBODY;
        goto over
    :: else
    fi;
    if
    :: said == free_ -> d_step { assert(drawn[t] >= x); drawn[t] = drawn[t] - x; real = real - x }
    :: else
    fi;
    if
#ifndef NO_FORK_SIGNAL
    :: said == fork_ -> signal()
#endif
#ifndef NO_END_SIGNAL
    :: said == end_ -> signal()
#endif
#ifndef NO_QUOTA_SIGNAL
    :: said == quota -> signal()
#endif
    :: else
    fi;
    if
    :: said == idle ->
#ifdef WAIT_OUTSIDE
        lock = NOBODY;
        waits[w] = true;
#else
        d_step { waits[w] = true; lock = NOBODY };
#endif
        if
        :: !waits[w]
        :: atomic { waits[w] && woken > 0 -> woken--; waits[w] = false }
        fi;
        atomic { lock == NOBODY -> lock = w }
    :: else
    fi;
    all_looked_after(w);
    lock = NOBODY;

    if
    :: said == alloc_ -> real = real + x; assert(real <= highest); drawn[t] = drawn[t] + x
    :: said == join_ -> d_step { drawn[t] = drawn[t] + drawn[x]; drawn[x] = 0 }
    :: else
    fi;
#ifdef STAYS_AWAY
    if
    :: atomic { said != idle && holds[w] == NOBODY && away + 1 < workers -> away++; goto over }
    :: true
    fi;
#endif
    d_step { said = idle; t = 0; a = 0; x = 0 };
    goto again;
over:
    skip
}

init {
    byte i;

    atomic {
        a_table();
        i = 0;
        do
        :: i < threads -> next[i] = first[i]; i++
        :: else -> break
        od;
        i = 0;
        do
        :: i < WORKERS -> holds[i] = NOBODY; i++
        :: else -> break
        od;
        status[0] = READY;
        i = 0;
        do
        :: i < workers -> run worker(i); i++
        :: else -> break
        od
    }
}
