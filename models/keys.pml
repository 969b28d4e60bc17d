/* keys.pml: the queue of keys that are kept (tracer/keys.c), and how the consumer hears of them (keeper.c, path.c), in Promela for SPIN 6.5; tests/models plays it, and README.md beside this file says what
 * is left out. Each inline has the name of the C function that it models. All words are read and written in order.
 *
 *   NT threads, each of which puts KEYS keys, one after another, into a queue of PLACES places
 *   STOPS: so many threads may stand still for ever in the middle of a put, as one that crashes does
 *   F_..: a planted fault
 */
#ifndef NT
#define NT 2
#endif
#ifndef KEYS
#define KEYS 2
#endif
#ifndef PLACES
#define PLACES 2
#endif
#ifndef STOPS
#define STOPS 0
#endif
#define ALL (NT * KEYS)

/* Of a key both words are its number, from 1 on, so that one is seen that is read or written in between. */
byte turn[PLACES]; byte first[PLACES]; byte second[PLACES];
byte put, got, refused; /* got: the consumer's */
byte rings; byte stopped; byte over; /* over: threads that put no more keys */
bit is_new; /* the queue is there */
bit was_put[ALL + 1]; bit was_heard[ALL + 1];

inline consumer_wakes() { rings++ }

/* A thread that is in the middle of a put may be in its way for ever: the others have to come to an end all the same, so each look that is made again follows a put of another's. */
inline keys_put() {
    at = put;
    do
    :: skip ->
#ifdef F_UNASKED
        seen = at;
#else
        atomic { seen = turn[at % PLACES]; assert(seen >= at || put - got >= PLACES) }
#endif
        if
        :: seen < at -> refused++; break
#ifdef F_SLOWER_IS_REFUSED
        :: seen > at -> assert(put - got >= PLACES); refused++; break
#else
        :: seen > at -> atomic { assert(put > at); at = put }
#endif
        :: else ->
#ifdef F_TWO_IN_A_PLACE
            put = at + 1; is_mine = 1;
#else
            atomic { if :: put == at -> put = at + 1; is_mine = 1 :: else -> assert(put > at); at = put fi };
#endif
            if
            :: is_mine ->
                if :: stopped < STOPS -> stopped++; is_stopped = 1 :: 1 fi;
                if
                :: is_stopped -> break
                :: else ->
#ifdef F_TURN_FIRST
                    turn[at % PLACES] = at + 1;
#endif
                    first[at % PLACES] = number; second[at % PLACES] = number;
                    was_put[number] = 1;
                    turn[at % PLACES] = at + 1;
                    break
                fi
            :: else
            fi
        fi
    od
}

inline dspec_tracer_keep_key() {
#ifdef F_RUNG_FIRST
    consumer_wakes();
#endif
    keys_put();
#ifndef F_RUNG_FIRST
    if :: is_mine && !is_stopped -> consumer_wakes() :: else fi;
#endif
    is_mine = 0; at = 0; seen = 0
}

active [NT] proctype T() {
    byte n = 0; byte number = 0; byte at = 0; byte seen = 0; bit is_mine = 0; bit is_stopped = 0;
    (is_new);
    do
    :: n < KEYS && !is_stopped -> number = _pid * KEYS + n + 1; n++; dspec_tracer_keep_key()
    :: else -> break
    od;
    over++
}

inline keys_are_waiting() { is_waiting = turn[got % PLACES] == got + 1 }

inline take_next() {
#ifdef F_FREED_FIRST
    turn[got % PLACES] = got + PLACES;
#endif
    one = first[got % PLACES]; assert(one == second[got % PLACES]);
#ifndef F_FREED_FIRST
    turn[got % PLACES] = got + PLACES;
#endif
    got++;
    assert(one > 0 && was_put[one] && !was_heard[one]); was_heard[one] = 1; one = 0
}

/* At most one is heard in a turn here; the others come in the next one. */
inline hear() {
    keys_are_waiting();
    if :: is_waiting -> take_next() :: else fi;
#ifndef F_OTHERS_STAY
    keys_are_waiting();
    if :: is_waiting -> consumer_wakes() :: else fi;
#endif
    is_waiting = 0
}

inline is_rung() {
    (rings != heard || over == NT);
#ifndef F_HEARD_LAST
    heard = rings
#endif
}

inline keys_new() {
    atomic {
        do :: n < PLACES -> turn[n] = n; n++ :: else -> break od;
        n = 0; is_new = 1
    }
}

active proctype C() {
    byte heard = 0; byte one = 0; bit is_waiting = 0; byte n = 0; byte left = 0;
    keys_new();
    do
    :: over == NT && rings == heard -> break
    :: else ->
        is_rung();
        hear();
#ifdef F_HEARD_LAST
        heard = rings
#endif
    od;
    /* Once all threads are over and nobody has rung: what was put is heard, but where it is after a place whose thread stands still. */
    do
    :: n < ALL -> n++; if :: was_put[n] && !was_heard[n] -> left++ :: else fi
    :: else -> break
    od;
    assert(left == 0 || stopped > 0);
    assert(left + stopped + got == put);
    assert(refused + put == ALL || stopped > 0)
}
