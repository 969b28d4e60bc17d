/* signals.pml: what handlers and consumers tell each other (tracer/signals.c, consumer.c), in Promela for SPIN 6.5; tests/models plays it, and README.md beside this file says what is left out.
 * Each inline has the name of the C function that it models. All words are read and written in order.
 *
 *   ENDS not set: threads crash. NT threads, each CRASHES times, over NC places; GIVEUP 1: a handler's time may be over
 *   ENDS: a signal from outside ends the process. NT threads get one each, beside NR tracers, which stop by themselves (STOPS: so many of them)
 *   F_..: a planted fault
 */
#ifndef NT
#define NT 2
#endif

#ifndef ENDS

#ifndef CRASHES
#define CRASHES 1
#endif
#ifndef NC
#define NC 2
#endif
#ifndef GIVEUP
#define GIVEUP 0
#endif
#define FREE 0
#define FILLING 1
#define READY 2
#define NO_PLACE 9

/* A place has two words, so that one that is read too early is seen: both are the number of the crash. */
byte state[NC]; byte first[NC]; byte second[NC];
byte unsaved; byte never_saved; byte told_unsaved;
bit saved_crash[NT*CRASHES+1]; byte over; /* over: threads that make no more crashes */

/* `place` says where it stands. */
inline post(number) {
    i = 0; place = NO_PLACE;
    do
    :: i < NC ->
#ifdef F_READY_AT_ONCE
        atomic { if :: state[i] == FREE -> state[i] = READY; place = i :: else fi };
#else
        atomic { if :: state[i] == FREE -> state[i] = FILLING; place = i :: else fi };
#endif
        if
        :: place != NO_PLACE -> first[i] = number; second[i] = number; state[i] = READY; break
        :: else -> i++
        fi
    :: else -> break
    od; i = 0
}
/* `is_over`: no time is left, which stays so. */
inline has_time() { if :: !is_over :: GIVEUP -> is_over = 1 fi }
inline wait_until_saved() { if :: unsaved == 0 :: GIVEUP || is_over -> is_over = 1 fi }

inline save_all(number) {
#ifndef F_COUNTED_LATE
    unsaved++;
#endif
    post(number);
#ifdef F_COUNTED_LATE
    unsaved++;
#endif
    do
    :: place == NO_PLACE && !is_over -> has_time(); if :: !is_over -> if :: GIVEUP -> skip :: state[0] == FREE || state[NC-1] == FREE fi; post(number) :: else fi
    :: else -> break
    od;
    if
    :: place != NO_PLACE ->
        wait_until_saved();
        assert(saved_crash[number] || is_over);
#ifdef F_GIVES_UP_TWICE
        if :: is_over && unsaved > 0 -> unsaved-- :: else fi
#endif
    :: else ->
        never_saved++;
#ifndef F_STAYS_COUNTED
        atomic { assert(unsaved > 0); unsaved-- }
#endif
    fi;
    is_over = 0; place = NO_PLACE
}

active [NT] proctype T() {
    byte n = 0; byte i = 0; byte place = NO_PLACE; bit is_over = 0;
    do
    :: n < CRASHES -> n++; save_all(_pid*CRASHES+n)
    :: else -> break
    od;
    over++
}

inline crash_is_saved(at) { atomic { if :: state[at] == READY -> state[at] = FREE; assert(unsaved > 0); unsaved-- :: else fi } }

inline tell_unsaved(so_many) { atomic { assert(unsaved >= so_many); told_unsaved = unsaved - so_many + never_saved } }

inline has_crash(res) { atomic { res = 0; k = 0; do :: k < NC -> res = res | (state[k] == READY); k++ :: else -> k = 0; break od } }

/* w has the places that are saved. */
inline save_crashes() {
    do
    :: k < NC ->
        if
        :: state[k] == READY -> number = first[k]; assert(number == second[k] && number != 0);
            atomic { assert(!saved_crash[number]); saved_crash[number] = 1; number = 0; w = w | (1 << k); saved++ }
        :: else
        fi; k++
    :: else -> k = 0; break
    od;
    tell_unsaved(saved);
    do
#ifdef F_FREES_ALL
    :: k < NC -> crash_is_saved(k); k++
#else
    :: k < NC -> if :: (w >> k) & 1 -> crash_is_saved(k) :: else fi; k++
#endif
    :: else -> break
    od;
    atomic { k = 0; w = 0; saved = 0 }
}

active proctype C() {
    byte k = 0; byte w = 0; byte saved = 0; byte number = 0; bit is_there = 0;
    do
    :: has_crash(is_there); if :: is_there -> save_crashes() :: else -> if :: over == NT -> break :: else -> (state[0] == READY || state[NC-1] == READY || over == NT) fi fi
    od;
    /* What was there as the last handler went on is saved too, and all places are free. */
    has_crash(is_there); if :: is_there -> save_crashes() :: else fi;
    tell_unsaved(0);
    do :: k < NC -> assert(state[k] == FREE); k++ :: else -> break od;
    assert(unsaved == 0 && told_unsaved == never_saved)
}

#else

#ifndef NR
#define NR 2
#endif
#ifndef STOPS
#define STOPS 1
#endif
#define NO_MORE 9

bit up[NR] = 1; bit ended[NR]; bit deferring[NR]; byte deferred[NR]; byte to_end; bit killed; byte handled;

#define IS_WANTED(r) (!ended[r])

/* `taken` says whether a consumer ends the process. */
inline defer() {
    do
    :: r < NR ->
        if
        :: up[r] && IS_WANTED(r) ->
            atomic { taken++; if :: !deferring[r] -> deferring[r] = 1; told = told | (1 << r); count++ :: else fi }
        :: else
        fi; r++
    :: else -> r = 0; break
    od;
    atomic { to_end = to_end + count; count = 0 };
    do
    :: r < NR ->
        if
        :: (told >> r) & 1 ->
#ifdef F_TIMED
            if :: up[r] -> deferred[r] = 1 :: else fi
#else
            atomic { if :: up[r] && deferred[r] == 0 -> deferred[r] = 1 :: else -> taken--; to_end--; if :: to_end == 0 -> taken = 0 :: else fi fi }
#endif
        :: else
        fi; r++
    :: else -> r = 0; break
    od
}

active [NT] proctype T() {
    byte r = 0; byte taken = 0; byte told = 0; byte count = 0;
    defer();
    if :: taken == 0 -> killed = 1 :: else fi;
    handled++
}

inline signals_end() { atomic { assert(to_end > 0); to_end--; if :: to_end == 0 -> killed = 1 :: else fi } }

inline consumer_ends_by_signal(r) {
    ended[r] = 1;
#ifdef F_TIMED
    /* its wait may be over at any time */
    if :: deferring[r] == 0 || deferred[r] != 0 :: true fi;
    is = deferred[r];
#else
    atomic { is = deferred[r]; deferred[r] = NO_MORE };
#endif
    if :: is == 1 -> signals_end() :: else fi
}

/* A tracer's consumer, and the stop that joins it. */
active [NR] proctype C() {
    byte is = 0; byte at = _pid - NT;
    if
    :: deferred[at] != 0
    :: at < STOPS /* somebody stops it */
    :: handled == NT
    fi;
    consumer_ends_by_signal(at);
    up[at] = 0;
    is = 0;
    (handled == NT && up[0] == 0 && up[NR-1] == 0);
    assert(killed)
}
#endif
