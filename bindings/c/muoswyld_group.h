/* The seven calls of a group over UDP, from C: create, join, leave, send, receive, reset, info. docs/C.md has a whole program.

   A member of a group is a thread of this process and a UDP socket. All members are given the same deliveries in the same
   order, though the network loses, repeats and reorders datagrams and members stop.

       muoswyld_config *config;
       muoswyld_group *group;
       muoswyld_config_new("0", "0,1,2", &config);
       muoswyld_config_address(config, 0, "127.0.0.1:7000");    and so on for 1 and 2
       muoswyld_config_key(config, key, 32);
       if (muoswyld_group_create(config, &group) != MUOSWYLD_STATUS_OK)
           fprintf(stderr, "%s\n", muoswyld_config_error(config));
       muoswyld_config_free(config);

   Rules for all calls:

   - A call answers a status. MUOSWYLD_STATUS_OK is 0. muoswyld_status_text has a sentence for each.
   - Handles (config, group, ticket, service) are opaque. Each has a call that frees it, which also takes NULL. Each handle is freed
     once, and not while another call is using it.
   - Calls on one group, and on one ticket, may be made from any thread, several at once. Calls on one config come one after
     the other. No call is made from a signal handler, nor in a child after fork().
   - A pointer that may be NULL is said to be so. NULL for another one is answered MUOSWYLD_STATUS_NULL_POINTER, and nothing is
     done. A pointer that isn't NULL must lead to memory of its type; lengths are in bytes.
   - What a call is given belongs to the caller, and is copied if it is needed later. What a call gives is the caller's to
     free, where its comment says so, by the call that it names. A `const char *` that is answered isn't freed.
   - timeout_ms is in milliseconds. 0 doesn't wait at all, and a negative one waits without end.
   - If the library fails by a mistake of its own, a call answers MUOSWYLD_STATUS_PANICKED. Nothing unwinds into the caller.
   - There is no state beside the handles. The library installs no signal handlers, and prints nothing unless it panics.

   muoswyld_service_new and what follows it make a replicated state machine of a member: all machines of a group apply the same
   commands in the same order, and who joins is sent the state. Calls on one service come one after the other.

   Link with `pkg-config --cflags --libs muoswyld-group`. libmuoswyld_group.a can't be linked together with the library of
   muoswyld.h, which it contains; libmuoswyld_group.so can.

   The node of each member is proved, as docs/PROVED.md says; the member around it and this interface are tested. */

/* This file is made from runtime/c by gate/try_group_c.py --write: change the comments there. */

#ifndef MUOSWYLD_GROUP_H
#define MUOSWYLD_GROUP_H

#include <stdbool.h>
#include <stddef.h>
#include <stdint.h>

/*
 What an answer is.
 */
typedef enum {
    /*
     Nothing: an answer that was cleared, or never filled.
     */
    MUOSWYLD_ANSWERED_NOTHING = 0,
    /*
     The machine has the state from here on. It comes once, and has no token.
     */
    MUOSWYLD_ANSWERED_READY = 1,
    /*
     A command was applied: here is what the machine answered.
     */
    MUOSWYLD_ANSWERED_DONE = 2,
    /*
     A barrier was reached: the machine has applied all that anybody was answered before it was asked.
     */
    MUOSWYLD_ANSWERED_REACHED = 3,
} muoswyld_answered;

/*
 How a member has ended. It does nothing any more.
 */
typedef enum {
    /*
     It hasn't ended.
     */
    MUOSWYLD_END_RUNNING = 0,
    /*
     It left.
     */
    MUOSWYLD_END_LEFT = 1,
    /*
     It was the last member, and left: the group is over.
     */
    MUOSWYLD_END_CLOSED = 2,
    /*
     The group goes on without it. Its place comes back as its next life.
     */
    MUOSWYLD_END_LEFT_OUT = 3,
    /*
     It asked to join, and nobody welcomed it. Its place comes back as its next life.
     */
    MUOSWYLD_END_UNWELCOMED = 4,
    /*
     Its caller stopped it, and it hasn't left.
     */
    MUOSWYLD_END_STOPPED = 5,
    /*
     Its numbers are used up.
     */
    MUOSWYLD_END_NO_NUMBERS_LEFT = 6,
    /*
     It could not go on: muoswyld_group_end_text says why.
     */
    MUOSWYLD_END_FAILED = 7,
    /*
     It joined after the end of its list, which another one follows. Its place can come back in that one.
     */
    MUOSWYLD_END_SUPERSEDED = 8,
    /*
     The list has something that only a later version of this library understands.
     */
    MUOSWYLD_END_OTHER_VERSION = 9,
    /*
     Its list ended, and the next one couldn't be begun here. Its place comes back in that as its next life.
     */
    MUOSWYLD_END_NOT_BEGUN = 10,
} muoswyld_end;

/*
 What a delivery is.
 */
typedef enum {
    /*
     Nothing: a delivery that was cleared, or never filled.
     */
    MUOSWYLD_KIND_NOTHING = 0,
    /*
     A message of a member.
     */
    MUOSWYLD_KIND_MESSAGE = 1,
    /*
     A name became a member. A joiner's first delivery is its own.
     */
    MUOSWYLD_KIND_JOINED = 2,
    /*
     A member left.
     */
    MUOSWYLD_KIND_LEFT = 3,
    /*
     A view begins: these are the members now. A founder's first delivery is one.
     */
    MUOSWYLD_KIND_VIEW = 4,
    /*
     The list ended, and another one follows it: its founders' view comes next.
     */
    MUOSWYLD_KIND_SUCCEEDED = 5,
} muoswyld_kind;

/*
 What a member is to its group.
 */
typedef enum {
    /*
     It has no list, and hasn't asked for one.
     */
    MUOSWYLD_ROLE_STRANGER = 0,
    /*
     It has asked to join.
     */
    MUOSWYLD_ROLE_ASKING = 1,
    /*
     It has a list.
     */
    MUOSWYLD_ROLE_MEMBER = 2,
    /*
     It numbers its group's entries.
     */
    MUOSWYLD_ROLE_SEQUENCER = 3,
    /*
     It has a ballot that isn't over: a reset is under way.
     */
    MUOSWYLD_ROLE_COORDINATOR = 4,
    /*
     It has left.
     */
    MUOSWYLD_ROLE_DEPARTED = 5,
} muoswyld_role;

/*
 What a call answers. Numbers keep their meaning; later versions may add others.
 */
typedef enum {
    /*
     It is done.
     */
    MUOSWYLD_STATUS_OK = 0,
    /*
     A pointer is NULL that may not be. Nothing was done.
     */
    MUOSWYLD_STATUS_NULL_POINTER = 1,
    /*
     A text is no name, or no set of names: a name is PLACE, 0 to 15, or PLACE/LIFE with a life of 2 to 16.
     */
    MUOSWYLD_STATUS_BAD_NAME = 2,
    /*
     A text is no address, or the address can't be that of the place.
     */
    MUOSWYLD_STATUS_BAD_ADDRESS = 3,
    /*
     A value is out of its range.
     */
    MUOSWYLD_STATUS_BAD_VALUE = 4,
    /*
     A place of the group has no address.
     */
    MUOSWYLD_STATUS_NO_ADDRESS = 5,
    /*
     There is no key, and the config isn't insecure.
     */
    MUOSWYLD_STATUS_NO_KEY = 6,
    /*
     A founder's first life creates the group; it can't join.
     */
    MUOSWYLD_STATUS_FOUNDER = 7,
    /*
     The name is none of the founders: it joins, and doesn't create.
     */
    MUOSWYLD_STATUS_NO_FOUNDER = 8,
    /*
     The system refused a socket, a thread, memory, a file or random bytes.
     */
    MUOSWYLD_STATUS_SYSTEM = 9,
    /*
     The time passed.
     */
    MUOSWYLD_STATUS_TIMEOUT = 10,
    /*
     Nothing is there now.
     */
    MUOSWYLD_STATUS_EMPTY = 11,
    /*
     Too many messages wait to be sent. This one wasn't sent.
     */
    MUOSWYLD_STATUS_FULL = 12,
    /*
     A message has at most 65,535 bytes. It wasn't sent.
     */
    MUOSWYLD_STATUS_TOO_LONG = 13,
    /*
     The member ended before the message went out whole: nobody is given it.
     */
    MUOSWYLD_STATUS_NOT_SENT = 14,
    /*
     The member ended while the message was under way: the others may be given it, or not.
     */
    MUOSWYLD_STATUS_MAYBE_SENT = 15,
    /*
     The member leaves, and sends no more. The message wasn't sent.
     */
    MUOSWYLD_STATUS_LEAVING = 16,
    /*
     The member has ended: muoswyld_group_ended says how.
     */
    MUOSWYLD_STATUS_ENDED = 17,
    /*
     A reset came to no view: fewer members are left than the least size.
     */
    MUOSWYLD_STATUS_TOO_FEW = 18,
    /*
     A reset came to no view: the window has no room for it.
     */
    MUOSWYLD_STATUS_CROWDED = 19,
    /*
     A reset came to no view: another one overtook it.
     */
    MUOSWYLD_STATUS_OVERTAKEN = 20,
    /*
     A reset came to no view: the group goes on without this member.
     */
    MUOSWYLD_STATUS_NOT_IN = 21,
    /*
     The member is none of its group's members, or not yet, or leaves, and can't reset it.
     */
    MUOSWYLD_STATUS_NOT_MEMBER = 22,
    /*
     The name is the member's own: it hasn't stopped.
     */
    MUOSWYLD_STATUS_ITSELF = 23,
    /*
     The text doesn't fit into its room.
     */
    MUOSWYLD_STATUS_NO_ROOM = 24,
    /*
     The library panicked, by a mistake of its own.
     */
    MUOSWYLD_STATUS_PANICKED = 25,
    /*
     Another cause, which this version has no number for.
     */
    MUOSWYLD_STATUS_OTHER = 26,
    /*
     The replica of a service has ended: muoswyld_service_end_text says why.
     */
    MUOSWYLD_STATUS_SERVICE_ENDED = 27,
    /*
     A call of a service's machine answered false.
     */
    MUOSWYLD_STATUS_MACHINE_FAILED = 28,
    /*
     Another call uses the service, or its machine calls it. Nothing was done.
     */
    MUOSWYLD_STATUS_BUSY = 29,
    /*
     A list can't end now: a member has stopped, is silent, suspected or refused, leaves or joins, or another list just ended.
     */
    MUOSWYLD_STATUS_NOT_NOW = 30,
    /*
     A list was to end, and goes on: somebody joined, left or stopped meanwhile, or a view began.
     */
    MUOSWYLD_STATUS_NOT_SUCCEEDED = 31,
    /*
     Another member ended the list, and the next one has other numbers or voters than were asked for.
     */
    MUOSWYLD_STATUS_OTHERWISE = 32,
    /*
     The place's folder of state isn't made, isn't the place's, is used by another process, or says that the life was begun before.
     */
    MUOSWYLD_STATUS_BAD_STATE = 33,
} muoswyld_status;

/*
 The settings of a member. All members of a group are given the same founders, resilience, window, pb_up_to and key.
 */
typedef struct muoswyld_config muoswyld_config;

/*
 A member of a group.
 */
typedef struct muoswyld_group muoswyld_group;

/*
 Where a call of a machine puts bytes.
 */
typedef struct muoswyld_records muoswyld_records;

/*
 A replicated state machine at a member.
 */
typedef struct muoswyld_service muoswyld_service;

/*
 A message on its way.
 */
typedef struct muoswyld_ticket muoswyld_ticket;

/*
 Where something stands in the one order of its group. Compare the generation first, then the number, then the index.
 */
typedef struct {
    /*
     How many lists of the group came before this one, from 0.
     */
    uint32_t generation;
    /*
     The number of the entry, from 1.
     */
    uint32_t number;
    /*
     The index among the messages of one entry, from 0.
     */
    uint32_t index;
} muoswyld_position;

/*
 A name: one life, 1 to 16, of a place, 0 to 15. A place comes back as its next life.
 */
typedef struct {
    /*
     The place, 0 to 15.
     */
    uint8_t place;
    /*
     Its life, 1 to 16; 0 if there is no name.
     */
    uint8_t life;
} muoswyld_name;

/*
 A set of names: at most one life of each place.
 */
typedef struct {
    /*
     The life of each place, 1 to 16; 0 if the place has none in the set.
     */
    uint8_t lives[16];
} muoswyld_names;

/*
 How a list of a group is founded.
 */
typedef struct {
    /*
     Its founders, each the first life of its place.
     */
    muoswyld_names founders;
    /*
     The places that vote who has stopped, each as the first life; none if the policy has no voters.
     */
    muoswyld_names voters;
    /*
     How many members may stop between two resets, 0 to 15.
     */
    uint8_t resilience;
    /*
     How many entries may wait for the slowest member, 1 to 1,008.
     */
    uint16_t window;
    /*
     Up to how many bytes a body goes by the sequencer, 0 to 1,024.
     */
    uint16_t pb_up_to;
} muoswyld_founding;

/*
 A delivery. muoswyld_delivery_clear frees what it has; the struct itself is the caller's.
 */
typedef struct {
    /*
     What it is.
     */
    muoswyld_kind kind;
    /*
     Where it stands.
     */
    muoswyld_position at;
    /*
     Of a message who sent it; else who joined or left. Life 0 in a view, and at the end of a list.
     */
    muoswyld_name name;
    /*
     Of a view: its members. At the end of a list: the members there, by their names in the list that ended.
     */
    muoswyld_names members;
    /*
     Of a view: how many members may stop until the next one, 0 to 15.
     */
    uint8_t resilience;
    /*
     At the end of a list: how the next one is founded. A member's name in that is the first life of its place.
     */
    muoswyld_founding next;
    /*
     Of a message: its bytes, which aren't changed. They stay until the delivery is cleared. Not NULL in a message, NULL else.
     */
    const uint8_t *message;
    /*
     How many bytes the message has, 0 to 65,535.
     */
    size_t length;
    /*
     The library's own: what it frees. Don't touch it.
     */
    void *owner;
} muoswyld_delivery;

/*
 What the next list of a group has otherwise than the latest one.
 */
typedef struct {
    /*
     How many members may stop between two resets, 0 to 15; negative: as it is.
     */
    int32_t resilience;
    /*
     How many entries may wait for the slowest member, 1 to 1,008; negative: as it is.
     */
    int32_t window;
    /*
     Up to how many bytes a body goes by the sequencer, 0 to 1,024; negative: as it is.
     */
    int32_t pb_up_to;
    /*
     The places that vote who has stopped, each as the first life of a member's place, odd in number. None: those voters that are members, less the
     highest one if their number is even.
     */
    muoswyld_names voters;
} muoswyld_next;

/*
 How often something happened since the member began.
 */
typedef struct {
    /*
     Datagrams that came.
     */
    uint64_t datagrams_heard;
    /*
     Datagrams that went out, each place for itself.
     */
    uint64_t datagrams_sent;
    /*
     Datagrams that are none by their form, or come of this place itself.
     */
    uint64_t malformed;
    /*
     Datagrams that aren't sealed by the key, come of no member's address, or are too long.
     */
    uint64_t dropped;
    /*
     Datagrams of another group or founding.
     */
    uint64_t other_group;
    /*
     Datagrams of another process of a name.
     */
    uint64_t other_process;
    /*
     Letters that the node heard.
     */
    uint64_t letters_heard;
    /*
     Letters that the node sent.
     */
    uint64_t letters_sent;
    /*
     Messages that were given to be sent.
     */
    uint64_t messages_sent;
    /*
     What the application was given.
     */
    uint64_t deliveries;
    /*
     Resets that the member began by itself.
     */
    uint64_t resets;
} muoswyld_counts;

/*
 What a member knows of itself and of its group.
 */
typedef struct {
    /*
     Its name in the latest list of its group.
     */
    muoswyld_name name;
    /*
     How many lists of the group came before that one.
     */
    uint32_t generation;
    /*
     The window of that list.
     */
    uint16_t window;
    /*
     Up to how many bytes a body goes by the sequencer in it.
     */
    uint16_t pb_up_to;
    /*
     What it is to its group.
     */
    muoswyld_role role;
    /*
     Whether it knows its group's id.
     */
    bool knows_group;
    /*
     Whether it is to leave.
     */
    bool leaves;
    /*
     The resilience of its last view.
     */
    uint8_t resilience;
    /*
     Its group's id, a random number; 0 until it knows it.
     */
    uint64_t group;
    /*
     The members after its last entry.
     */
    muoswyld_names members;
    /*
     The sequencer: the name that began its last view.
     */
    muoswyld_name sequencer;
    /*
     The round of its last view.
     */
    uint32_t round;
    /*
     The number of its last view.
     */
    uint32_t view_number;
    /*
     The number up to which its list is trimmed.
     */
    uint32_t base;
    /*
     The number up to which its application has taken entries.
     */
    uint32_t taken;
    /*
     The number up to which it knows the list to be accepted.
     */
    uint32_t accepted;
    /*
     The number of its last entry.
     */
    uint32_t top;
    /*
     The names that a reset of its own waits for.
     */
    muoswyld_names waits_for;
    /*
     Members that nothing was heard of for a while.
     */
    muoswyld_names silent;
    /*
     At the sequencer, with half of the window used: the members that have taken least.
     */
    muoswyld_names slow;
    /*
     The names that were told as stopped.
     */
    muoswyld_names stopped;
    /*
     How many messages wait to be sent, or are under way.
     */
    uint64_t unsettled;
    /*
     How many bytes of messages wait to be sent, each with its head.
     */
    uint64_t waiting;
    /*
     The measured round trip, in microseconds; 0 until there is one.
     */
    uint64_t round_trip;
    /*
     How often something happened.
     */
    muoswyld_counts counts;
} muoswyld_info;

/*
 A state machine: what its calls do depends on its state and on what they are given alone. They read no clock, draw no random numbers, and make no call
 on the service or its group. All are made in the thread that calls the service. If one answers false, it can't go on, and the service ends.
 */
typedef struct {
    /*
     What each call is given first. It may be NULL.
     */
    void *context;
    /*
     Applies the command of so many bytes that stands at this position, and adds its answer, if it has one, by muoswyld_records_add. A command that it
     can't read changes nothing, and is no failure. The pointers end with the call.
     */
    bool (*apply)(void *context, const muoswyld_position *at, const uint8_t *command, size_t length, muoswyld_records *answer);
    /*
     Adds the state now as records, each by a muoswyld_records_add, in an order that is the same for equal states. Members compare digests of these.
     */
    bool (*snapshot)(void *context, muoswyld_records *records);
    /*
     Takes the next record of a snapshot. The machine is a new one before the first. False if it isn't a record of this machine.
     */
    bool (*restore)(void *context, const uint8_t *record, size_t length);
} muoswyld_machine;

/*
 An answer of a service. muoswyld_answer_clear frees what it has; the struct itself is the caller's.
 */
typedef struct {
    /*
     What it is.
     */
    muoswyld_answered what;
    /*
     The caller's number for what was asked.
     */
    uint64_t token;
    /*
     Of a command: what the machine answered, which isn't changed. It stays until the answer is cleared. NULL if there is nothing.
     */
    const uint8_t *bytes;
    /*
     How many bytes that has.
     */
    size_t length;
    /*
     The library's own: what it frees. Don't touch it.
     */
    void *owner;
} muoswyld_answer;

/*
 How a service stands.
 */
typedef struct {
    /*
     Whether its machine has the state.
     */
    bool is_ready;
    /*
     The position of the last delivery that it has applied; number 0 if none.
     */
    muoswyld_position applied;
    /*
     The members that have the state, if this one has.
     */
    muoswyld_names holders;
    /*
     How many messages wait since the member has no room for them. While this isn't 0, call muoswyld_service_next again within 5 ms.
     */
    uint64_t unsent;
} muoswyld_service_info;

#ifdef __cplusplus
extern "C" {
#endif // __cplusplus

/*
 Makes the settings of a member: `name` as "0", or as "0/2" for a place that came back, and the founders as "0,1,2". The resilience is 0, the
 window 256, and bodies of up to 1,024 bytes go by the sequencer.

 It puts the config, which muoswyld_config_free frees, at `config`, or NULL if it fails. MUOSWYLD_STATUS_BAD_NAME if `name` is no name or
 `founders` no set of names.

 From any thread.
 */
muoswyld_status muoswyld_config_new(const char *name,
                                    const char *founders,
                                    muoswyld_config **config);

/*
 Frees a config. Groups that were made of it stay as they are. NULL is nothing.
 */
void muoswyld_config_free(muoswyld_config *config);

/*
 A sentence on the last call with this config that failed, muoswyld_group_create and muoswyld_group_join among them: it says more than the status,
 such as which place has no address. Empty if none failed, or if `config` is NULL.

 The text is the config's: it stays until the next call with it.
 */
const char *muoswyld_config_error(const muoswyld_config *config);

/*
 How many members may stop between two resets, 0 to 15, so that nothing which was given out is lost (0).

 The range of numbers is looked at when the group is created or joined, here and below: MUOSWYLD_STATUS_BAD_VALUE comes from there.
 */
muoswyld_status muoswyld_config_resilience(muoswyld_config *config,
                                           uint8_t members);

/*
 How many entries may wait for the slowest member, 1 to 1,008 (256).
 */
muoswyld_status muoswyld_config_window(muoswyld_config *config, uint16_t entries);

/*
 The longest body that goes by the sequencer, 0 to 1,024 bytes (1,024); a longer one goes to all, and its number alone by the sequencer, which
 pays if the network has multicast.
 */
muoswyld_status muoswyld_config_pb_up_to(muoswyld_config *config,
                                         uint16_t bytes);

/*
 The address of a place, 0 to 15: numbers and a port, as "10.0.0.1:7000" or "[::1]:7000". Every founder has one, and so has the member itself.

 MUOSWYLD_STATUS_BAD_ADDRESS if it is no such text, if the place or the address has one already, or if some are of IPv4 and some of IPv6.
 */
muoswyld_status muoswyld_config_address(muoswyld_config *config,
                                        uint8_t place,
                                        const char *address);

/*
 The address to bind, if it isn't the one at which the others reach this member: as that of muoswyld_config_address, with the same error.
 */
muoswyld_status muoswyld_config_bind(muoswyld_config *config,
                                     const char *address);

/*
 The group's key, of 32 bytes: datagrams are sealed by it, and others are dropped. MUOSWYLD_STATUS_BAD_VALUE for another length. The bytes are
 copied.
 */
muoswyld_status muoswyld_config_key(muoswyld_config *config,
                                    const uint8_t *key,
                                    size_t length);

/*
 Writes a new random key to the `length` bytes at `key`, which are 32. All members of a group are given the same one. MUOSWYLD_STATUS_BAD_VALUE for
 another length, and _SYSTEM if the system gives no random bytes.

 From any thread.
 */
muoswyld_status muoswyld_key_random(uint8_t *key,
                                    size_t length);

/*
 Allows a group without a key. Whoever reaches a member's address can then read all, and end the group.
 */
muoswyld_status muoswyld_config_insecure(muoswyld_config *config);

/*
 The fewest members that a reset goes on with, 1 to 16. A majority of the last view if it isn't set.
 */
muoswyld_status muoswyld_config_least(muoswyld_config *config, uint8_t members);

/*
 How many bytes of messages may wait to be sent, 131,072 or more (4 MiB).
 */
muoswyld_status muoswyld_config_most_waiting(muoswyld_config *config, size_t bytes);

/*
 How many deliveries may wait to be received before the group is held back, 1 or more (4,096).
 */
muoswyld_status muoswyld_config_most_unreceived(muoswyld_config *config, size_t deliveries);

/*
 The longest payload of a datagram, 1,232 to 65,000 bytes (1,400).
 */
muoswyld_status muoswyld_config_datagram(muoswyld_config *config, size_t bytes);

/*
 For how many microseconds the member's thread looks for more, before it sleeps, after it had something to do: 0 (the default) to 1,000. This takes
 a processor meanwhile, and saves the time of waking up at each hop of a message.
 */
muoswyld_status muoswyld_config_spin(muoswyld_config *config,
                                     uint32_t microseconds);

/*
 How often an idle member ticks, in milliseconds, 1 or more (50).
 */
muoswyld_status muoswyld_config_tick(muoswyld_config *config, uint32_t milliseconds);

/*
 The path of a new file in which the member writes what its node was given and what it answered, so that the run can be judged
 (docs/NETWORK.md, "Journals, and how they are judged"). MUOSWYLD_STATUS_BAD_VALUE if it isn't UTF-8.
 */
muoswyld_status muoswyld_config_journal(muoswyld_config *config,
                                        const char *path);

/*
 How many milliseconds muoswyld_group_create and muoswyld_group_join wait at most until the member is in the group. They wait without end if it
 isn't set, or negative.
 */
muoswyld_status muoswyld_config_start_within(muoswyld_config *config,
                                             int timeout_ms);

/*
 The node that is linked: "proved SOURCES TOOLCHAIN", or "unproved SOURCES TOOLCHAIN" if nothing is proved of it. SOURCES is the beginning of a sum of
 its sources.

 From any thread. The text is the library's for as long as it is loaded.
 */
const char *muoswyld_group_version(void);

/*
 Adds a record of at most 1,048,576 bytes to a snapshot, or bytes to an answer. It is called within the machine's calls alone. The bytes are copied.

 MUOSWYLD_STATUS_TOO_LONG if it has more; then the machine's call fails, whatever it answers.
 */
muoswyld_status muoswyld_records_add(muoswyld_records *records,
                                     const uint8_t *record,
                                     size_t length);

/*
 CreateGroup: creates a group, or takes part in creating it; the member's name is one of the founders. It returns once the member is in the group:
 the other founders ask the lowest one, and wait until it runs. The config stays the caller's, and may be used again.

 It puts the group, which muoswyld_group_free frees, at `group`, or NULL if it fails; then muoswyld_config_error says more.
 MUOSWYLD_STATUS_NO_FOUNDER if the name is none of the founders, _NO_ADDRESS if a founder's place has none, _NO_KEY without a key,
 _BAD_VALUE if a number is out of its range, _SYSTEM if the system refused a socket or a thread or the journal's file is there, _TIMEOUT if
 the time of muoswyld_config_start_within passed, and _ENDED if the member ended before it was in the group.

 From any thread, as long as no other call uses the config.
 */
muoswyld_status muoswyld_group_create(muoswyld_config *config,
                                      muoswyld_group **group);

/*
 Creates a group or joins one, as the name says: a founder's first life in its list creates, any other name joins. Beside what both say it answers
 MUOSWYLD_STATUS_BAD_STATE if the life was begun before, another process of the place runs, or the folder of state isn't the place's.

 From any thread, as long as no other call uses the config.
 */
muoswyld_status muoswyld_group_start(muoswyld_config *config,
                                     muoswyld_group **group);

/*
 JoinGroup: joins a group; the member's name is none of the founders, or a later life of a founder's place. It returns once the member is in the
 group, whose entries it is given from its own join on. A name never runs twice: a place whose process ended comes back as its next life.

 The group and the errors are as those of muoswyld_group_create. MUOSWYLD_STATUS_FOUNDER if the name is one of the founders.

 From any thread, as long as no other call uses the config.
 */
muoswyld_status muoswyld_group_join(muoswyld_config *config,
                                    muoswyld_group **group);

/*
 Frees a group. If its member still runs, it is ended without leaving, as by muoswyld_group_stop. Tickets and deliveries of it stay. No other call
 may be using the group: to end a thread that waits in one, call muoswyld_group_stop first. NULL is nothing.
 */
void muoswyld_group_free(muoswyld_group *group);

/*
 SendToGroup: sends a message of at most 65,535 bytes, and returns once it is delivered at this member too. From then on it survives as many stops
 as the resilience says. `message` may be NULL if `length` is 0. It puts where the message stands in the one order at `at`, if that isn't NULL.

 MUOSWYLD_STATUS_FULL if there was no room for it until the time passed, _TIMEOUT if it was taken and isn't delivered in time: it may be
 later. _TOO_LONG, _LEAVING and _NOT_SENT: nobody is given it. _MAYBE_SENT: the member ended, and the others may be given it or not.

 From any thread. Sends of one thread are delivered in their order.
 */
muoswyld_status muoswyld_group_send(const muoswyld_group *group,
                                    const uint8_t *message,
                                    size_t length,
                                    int timeout_ms,
                                    muoswyld_position *at);

/*
 Gives a message of at most 65,535 bytes to the group, and doesn't wait for its delivery. It waits at most so long while too many messages wait.
 `message` may be NULL if `length` is 0. Messages are sent in the order in which they were given.

 It puts a ticket, which muoswyld_ticket_free frees, at `ticket`, or NULL if it fails. `ticket` may be NULL: then nothing tells what became of the
 message. MUOSWYLD_STATUS_FULL if there was no room in time, and _TOO_LONG, _LEAVING and _NOT_SENT, as those of muoswyld_group_send.

 From any thread.
 */
muoswyld_status muoswyld_group_submit(const muoswyld_group *group,
                                      const uint8_t *message,
                                      size_t length,
                                      int timeout_ms,
                                      muoswyld_ticket **ticket);

/*
 Waits until a ticket's message is delivered at its own member, and puts where it stands at `at`, if that isn't NULL. It may be called again, and
 answers the same.

 MUOSWYLD_STATUS_TIMEOUT if it isn't known yet what became of the message. _LEAVING, _NOT_SENT and _MAYBE_SENT as those of muoswyld_group_send.

 From any thread, also after the group is freed.
 */
muoswyld_status muoswyld_ticket_wait(const muoswyld_ticket *ticket,
                                     int timeout_ms,
                                     muoswyld_position *at);

/*
 Frees a ticket. Its message goes on. NULL is nothing.
 */
void muoswyld_ticket_free(muoswyld_ticket *ticket);

/*
 ReceiveFromGroup: puts the next delivery at `delivery`, once there is one. What the struct had before is overwritten: clear it first. Free the
 message by muoswyld_delivery_clear.

 MUOSWYLD_STATUS_EMPTY if the timeout is 0 and nothing is there, _TIMEOUT if nothing came in time, and _ENDED once the member has ended and all that
 it delivered was received. Then the delivery is MUOSWYLD_KIND_NOTHING.

 Receive at once what is delivered: a member that doesn't holds the whole group back once its window is full.

 From any thread. If several receive, each delivery goes to one of them.
 */
muoswyld_status muoswyld_group_receive(const muoswyld_group *group,
                                       int timeout_ms,
                                       muoswyld_delivery *delivery);

/*
 A descriptor for poll, select, epoll and the loops over them. It can be read while there is something to receive, and from the member's end on. Once
 it can be read, call muoswyld_group_receive with a timeout of 0 until that answers MUOSWYLD_STATUS_EMPTY: only then it becomes quiet again. It may be
 readable though nothing is there.

 The descriptor is the group's, and ends with it: don't read, write or close it. -1 if `group` is NULL.

 From any thread.
 */
int muoswyld_group_descriptor(const muoswyld_group *group);

/*
 ResetGroup: a new view without the names of which this member was told that they have stopped. `least` is the fewest members that it goes on with,
 1 to 16, or 0 for that of the config. It puts the number of the new view in the one order at `number`, if that isn't NULL; the view itself is a
 delivery.

 MUOSWYLD_STATUS_BAD_VALUE if `least` is above 16; _TOO_FEW, _CROWDED, _OVERTAKEN, _NOT_IN and _NOT_MEMBER if it came to no view; _TIMEOUT if it
 isn't decided in time, and goes on; _ENDED.

 From any thread.
 */
muoswyld_status muoswyld_group_reset(const muoswyld_group *group,
                                     uint8_t least,
                                     int timeout_ms,
                                     uint32_t *number);

/*
 Ends the group's list, and has another one follow it: before a place's lives run out, or to change the window, the resilience or the voters. It
 returns once the list has ended at this member, which is a delivery, too. All calls go on over it. NULL for `next` if all is to stay as it is; NULL
 for `at` if the position of the end isn't wanted.

 MUOSWYLD_STATUS_NOT_NOW if a member has stopped, is silent, suspected or refused, leaves or joins, or if another list just ended; _NOT_SUCCEEDED if
 that happened meanwhile, and the list goes on; _OTHERWISE if another member ended it with other numbers or voters; _BAD_VALUE if no group can have
 such numbers or voters; _NOT_MEMBER; _TIMEOUT if it hasn't ended in time, and may later; _ENDED.

 From any thread.
 */
muoswyld_status muoswyld_group_succeed(const muoswyld_group *group,
                                       const muoswyld_next *next,
                                       int timeout_ms,
                                       muoswyld_position *at);

/*
 Tells that a name has stopped for certain: its process has ended, or can't act any more. Tell each running member. The group is then reset without
 it. A name that still runs must never be given here: two parts of the group could go on with two lists. Silence is no proof of a stop.

 MUOSWYLD_STATUS_BAD_NAME if it is no name, _ITSELF if it is the member's own, _ENDED.

 From any thread. It waits for the member's thread alone, and not for the reset.
 */
muoswyld_status muoswyld_group_stopped(const muoswyld_group *group,
                                       muoswyld_name name);

/*
 LeaveGroup: leaves the group once all that was sent before is delivered. After it only what is delivered and not received yet can be received. The
 group is still to be freed.

 MUOSWYLD_STATUS_TIMEOUT if it hasn't left in time, and goes on leaving; _ENDED if it ended in another way.

 From any thread.
 */
muoswyld_status muoswyld_group_leave(const muoswyld_group *group,
                                     int timeout_ms);

/*
 GetInfoGroup: puts what the member knows of itself and of its group at `info`. MUOSWYLD_STATUS_ENDED if it has ended.

 From any thread. It waits for the member's thread alone.
 */
muoswyld_status muoswyld_group_info(const muoswyld_group *group, muoswyld_info *info);

/*
 Ends the member without leaving, as if its process had stopped, and doesn't wait for that. Calls that wait on this group return. The others go on
 without the member once they are told so (muoswyld_group_stopped). MUOSWYLD_STATUS_OK also if it has ended before.

 From any thread.
 */
muoswyld_status muoswyld_group_stop(const muoswyld_group *group);

/*
 Waits until the member ends, at most so long, and answers how; MUOSWYLD_END_RUNNING if it runs, or if `group` is NULL.

 From any thread.
 */
muoswyld_end muoswyld_group_ended(const muoswyld_group *group, int timeout_ms);

/*
 A sentence on how the member ended; NULL while it runs, or if `group` is NULL. The text is the group's, and stays until that is freed.

 From any thread.
 */
const char *muoswyld_group_end_text(const muoswyld_group *group);

/*
 The next notice for an operator: who is silent or slow, who was left out and why. It writes a sentence, which ends with a zero, to the `room` bytes at
 `text`. The latest 64 are kept.

 MUOSWYLD_STATUS_EMPTY if there is none now. _NO_ROOM if it needs more bytes: it is kept, and 512 are enough for every notice.

 From any thread.
 */
muoswyld_status muoswyld_group_notice(const muoswyld_group *group,
                                      char *text,
                                      size_t room);

/*
 Makes a replicated state machine of a member that is in its group and of which nothing was received yet. From then on the service receives: don't
 call muoswyld_group_receive. All members of the group have a service of the same kind of machine. A founder's begins as it is; who joins is sent the
 state of the others (docs/REPLICAS.md).

 The machine is copied; its context stays the caller's, and must stay until the service is freed. It puts the service, which muoswyld_service_free
 frees, at `service`, or NULL if it fails: MUOSWYLD_STATUS_ENDED if the member has ended, _NULL_POINTER also if a call of the machine is NULL.

 From any thread. All calls on one service come one after the other, and the machine's calls are made within them, in the same thread. A call that is
 made while another one uses the service, and one that the machine makes, is answered MUOSWYLD_STATUS_BUSY, and does nothing.
 */
muoswyld_status muoswyld_service_new(const muoswyld_group *group,
                                     const muoswyld_machine *machine,
                                     muoswyld_service **service);

/*
 Frees a service. Its member goes on: leave or stop it, as nobody receives its deliveries now. NULL is nothing.
 */
void muoswyld_service_free(muoswyld_service *service);

/*
 Asks for a command of at most 1,048,576 bytes, and doesn't wait: the answer has this token. The command is applied at most once. If the member or the
 service ends before it is answered, nobody knows whether it is applied.

 MUOSWYLD_STATUS_TOO_LONG, or what muoswyld_service_next answers once the service has ended.
 */
muoswyld_status muoswyld_service_submit(const muoswyld_service *service,
                                        uint64_t token,
                                        const uint8_t *command,
                                        size_t length);

/*
 Asks for a barrier, and doesn't wait: once it is answered with this token, the machine has applied all that anybody was answered before. A read of the
 machine then, before the next call, is ordered among the commands. Any other read may be of an earlier state.

 The errors are those of muoswyld_service_submit.
 */
muoswyld_status muoswyld_service_barrier(const muoswyld_service *service,
                                         uint64_t token);

/*
 Applies what was delivered, and puts the next answer at `answer`, once there is one. What the struct had before is overwritten: clear it first, by
 muoswyld_answer_clear. A loop of your own waits for muoswyld_group_descriptor, at most 200 ms, and then calls this with a timeout of 0 until it answers
 MUOSWYLD_STATUS_EMPTY. A service that isn't called holds its whole group back.

 MUOSWYLD_STATUS_EMPTY if the timeout is 0 and nothing is there, _TIMEOUT if nothing came in time, _ENDED if the member has ended, _SERVICE_ENDED if the
 replica has (muoswyld_service_end_text says why), _MACHINE_FAILED if a call of the machine answered false. After these three nothing is applied any more.
 */
muoswyld_status muoswyld_service_next(const muoswyld_service *service,
                                      int timeout_ms,
                                      muoswyld_answer *answer);

/*
 Frees what an answer has, and makes it MUOSWYLD_ANSWERED_NOTHING. An answer that has nothing, or NULL, is left as it is.

 From any thread, as the caller's own memory.
 */
void muoswyld_answer_clear(muoswyld_answer *answer);

/*
 Puts how the service stands at `info`. It answers also once the service has ended.
 */
muoswyld_status muoswyld_service_status(const muoswyld_service *service, muoswyld_service_info *info);

/*
 A sentence on how the service ended; NULL while it runs, or if `service` is NULL. The text is the service's, and stays until that is freed.
 */
const char *muoswyld_service_end_text(const muoswyld_service *service);

/*
 The place's folder of state, on a local disk, as muoswyld_group_found makes it: which life was begun last, and whom the place has refused. With it no
 life runs twice, and no two processes of the place run at a time. MUOSWYLD_STATUS_BAD_VALUE if the path isn't UTF-8.
 */
muoswyld_status muoswyld_config_state(muoswyld_config *config,
                                      const char *path);

/*
 The places that vote who has stopped, as "0,1,2": some of the founders, odd in number; all founders if it isn't set. With voters and a folder of state
 the policy is that of muoswyld_config_echo if none is set, and else that of muoswyld_config_told. MUOSWYLD_STATUS_BAD_NAME if it is no set of names.
 */
muoswyld_status muoswyld_config_voters(muoswyld_config *config,
                                       const char *voters);

/*
 A name has stopped once muoswyld_group_stopped says so (docs/FAILURES.md, for all policies).
 */
muoswyld_status muoswyld_config_told(muoswyld_config *config);

/*
 A name has stopped once a majority of the voters has refused it, each on its disk.
 */
muoswyld_status muoswyld_config_echo(muoswyld_config *config);

/*
 The same, and its lease of so many milliseconds is over. The rate of a running machine's clock differs from real time by so many thousandths at most.
 */
muoswyld_status muoswyld_config_lease(muoswyld_config *config,
                                      uint32_t milliseconds,
                                      uint32_t drift);

/*
 A name has stopped once a program that is run with the name, which ends its process or its machine, ended with 0. After so many milliseconds the
 program is killed, and tried again later. MUOSWYLD_STATUS_BAD_VALUE if the path isn't UTF-8.
 */
muoswyld_status muoswyld_config_command(muoswyld_config *config,
                                        const char *program,
                                        uint32_t milliseconds);

/*
 Has the list end by itself, and another one follow it, once a member's place has at most so many lives left, 0 to 15, or at most so many numbers of
 entries are left, of 2,000,000,000. All members are given the same. If it isn't set the list ends only by muoswyld_group_succeed.
 */
muoswyld_status muoswyld_config_succeed_at(muoswyld_config *config,
                                           uint8_t lives,
                                           uint32_t numbers);

/*
 Has the config name the place's next life that was never begun, in the latest list of the group: as its folder of state says, and members at the other
 addresses that answer in this time. Set the addresses, the key and the folder before, and start the member by muoswyld_group_start.

 MUOSWYLD_STATUS_BAD_STATE if the folder isn't the place's, or has no life left, _BAD_VALUE if there is none, _NO_ADDRESS if the place has none, and _SYSTEM
 if the system refused a socket or the members run another version. If nobody answers, the folder's word is taken.
 */
muoswyld_status muoswyld_config_next_life(muoswyld_config *config,
                                          int timeout_ms);

/*
 Makes the folder of state of a name that runs for the first time: once for each place, when the group is founded, with the settings with which it will
 run. A founder's place that votes has its voter's file in it. A place that lost its disk has a new folder made with a life that was never begun: it votes
 no more.

 MUOSWYLD_STATUS_BAD_STATE if the folder has a state already or can't be made, and _BAD_VALUE if no folder is set or a voter is no founder;
 muoswyld_config_error says more.
 */
muoswyld_status muoswyld_group_found(muoswyld_config *config);

/*
 A sentence for a status, in English, without a newline and without a full stop. "no such status" for a number that is none.

 From any thread. The text is the library's for as long as it is loaded.
 */
const char *muoswyld_status_text(int status);

/*
 Frees what a delivery has, and makes it MUOSWYLD_KIND_NOTHING. A delivery that has nothing, or NULL, is left as it is. Before a struct is used
 for the next delivery it must be cleared, or its message is never freed.

 From any thread, as the caller's own memory.
 */
void muoswyld_delivery_clear(muoswyld_delivery *delivery);

#ifdef __cplusplus
} // extern "C"
#endif // __cplusplus

#endif /* MUOSWYLD_GROUP_H */
