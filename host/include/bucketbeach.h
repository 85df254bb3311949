/* The calls of the proved simulator, made by tools/header. Every number has 64 bits; an answer's first field is the refusal,
 * 0 for none, and where it is not 0 all other fields are 0. A call may be given any numbers and any bytes; one that is
 * refused changes nothing that was lent to it. */
#ifndef BUCKETBEACH_H
#define BUCKETBEACH_H

#include <stddef.h>
#include <stdint.h>

/* The settings of a simulation. */
typedef struct {
    uint64_t servers;
    uint64_t heartbeat_interval;
    uint64_t election_timeout_min;
    uint64_t election_timeout_max;
    uint64_t max_entries_per_message;
    uint64_t max_entries_in_flight;
    uint64_t one_way_delay;
    uint64_t clients;
    uint64_t command_bytes;
    uint64_t client_timeout;
    uint64_t client_backoff;
    /* 0 or 1. */
    uint64_t count_bytes;
    /* 0 or 1. */
    uint64_t raft_checks;
    uint64_t start_spread;
} sim_settings;

/* The capacities, by document 01's letters L, P, M, Q, W and H. */
typedef struct {
    uint64_t log_indexes;
    uint64_t payload;
    uint64_t message;
    uint64_t events;
    uint64_t writes;
    uint64_t history;
} sim_limits;

/* The numbers of a random schedule's settings: times and durations in nanoseconds. */
typedef struct {
    uint64_t start;
    uint64_t end;
    uint64_t mean_gap;
    uint64_t max_duration;
} sim_chaos;

/* An input that a call opened. */
typedef struct {
    /* 0 none, 1 start, 2 message, 3 timer, 4 proposal, 5 confirmation. */
    uint64_t kind;
    /* The server that gets it. */
    uint64_t server;
    /* Start: incarnation. Message: sender. Timer: timer. Proposal: client. Confirmation: request. */
    uint64_t first;
    /* Start: the node's seed. Message: length. Proposal: sequence number. */
    uint64_t second;
    /* Message: entries. */
    uint64_t third;
} sim_input;

/* The length of an area in bytes. */
typedef struct {
    uint64_t refusal;
    uint64_t length;
} sim_length_answer;

/* The seed of a stream. */
typedef struct {
    uint64_t refusal;
    uint64_t seed;
} sim_seed_answer;

/* A schedule: how many entries its list has, and the generator after its draws. */
typedef struct {
    uint64_t refusal;
    uint64_t count;
    uint64_t generator;
} sim_schedule_answer;

/* A call with nothing to tell. */
typedef struct {
    uint64_t refusal;
} sim_done_answer;

/* A start, a direct call, or an end. A direct call that opens none met a stopped server. */
typedef struct {
    uint64_t refusal;
    sim_input input;
} sim_opened_answer;

/* A step. */
typedef struct {
    uint64_t refusal;
    /* 1 where an event was taken, 0 where none was due. */
    uint64_t taken;
    sim_input input;
} sim_stepped_answer;

/* A seal. */
typedef struct {
    uint64_t refusal;
    /* 1 synced, 2 nothing to sync, 3 cut. */
    uint64_t outcome;
    /* The start that was owed, behind a cut. */
    sim_input input;
} sim_sealed_answer;

/* A server's status. */
typedef struct {
    uint64_t refusal;
    /* 1 where the server runs. */
    uint64_t running;
    uint64_t role;
    uint64_t term;
    /* 1 where the server knows a leader. */
    uint64_t hinted;
    uint64_t leader;
    uint64_t commit;
} sim_status_answer;

/* A server's term and vote. */
typedef struct {
    uint64_t refusal;
    uint64_t term;
    /* 1 where the server has voted. */
    uint64_t voted;
    uint64_t vote;
} sim_hard_state_answer;

/* The size of a server's log: indexes that hold an entry, the highest of them, and those below it that hold none. */
typedef struct {
    uint64_t refusal;
    uint64_t count;
    uint64_t last;
    uint64_t gaps;
} sim_log_answer;

/* An entry of a log: a flag, its term, its payload's kind, and the bytes of a command. */
typedef struct {
    uint64_t refusal;
    uint64_t present;
    uint64_t term;
    uint64_t kind;
    uint64_t length;
} sim_entry_answer;

/* The running server that leads the highest term. */
typedef struct {
    uint64_t refusal;
    uint64_t present;
    uint64_t server;
    uint64_t term;
} sim_leader_answer;

/* The highest index that a server has applied since it last started. */
typedef struct {
    uint64_t refusal;
    uint64_t index;
} sim_applied_answer;

/* The first payload that any server applied at an index. */
typedef struct {
    uint64_t refusal;
    uint64_t present;
    uint64_t kind;
    uint64_t length;
} sim_applied_entry_answer;

/* The counters of a run. */
typedef struct {
    uint64_t refusal;
    uint64_t messages;
    uint64_t bytes;
    uint64_t entries;
    uint64_t entries_to_leaders;
    uint64_t fsyncs;
    uint64_t storage_bytes;
    uint64_t client_replies;
    uint64_t discarded;
    uint64_t max_log_gaps;
} sim_metrics_answer;

/* What one server has sent. */
typedef struct {
    uint64_t refusal;
    uint64_t messages;
    uint64_t bytes;
    uint64_t entries;
} sim_sent_by_answer;

/* A client's reply: when its command was first sent, when the reply arrived, the command's index, and its client
 * key. */
typedef struct {
    uint64_t refusal;
    uint64_t present;
    uint64_t sent;
    uint64_t received;
    uint64_t index;
    uint64_t client;
    uint64_t sequence;
} sim_reply_answer;

/* An answer to a request to confirm leadership. */
typedef struct {
    uint64_t refusal;
    uint64_t present;
    uint64_t request;
    /* 1 where leadership was confirmed, 0 where it was lost. */
    uint64_t confirmed;
    uint64_t read_index;
} sim_confirmation_answer;

/* A violation that is kept: when it was reported, the check, how many numbers its text has, and these. */
typedef struct {
    uint64_t refusal;
    uint64_t present;
    uint64_t time;
    uint64_t check;
    uint64_t count;
    uint64_t numbers[5];
} sim_violation_answer;

/* The run as a whole. */
typedef struct {
    uint64_t refusal;
    uint64_t now;
    uint64_t events;
    uint64_t seed;
    /* 0 closed, 1 writing, 2 sending. */
    uint64_t phase;
    /* The server whose input is open, or 0. */
    uint64_t server;
    /* Its kind, as `InputNumbers` has it, or 0. */
    uint64_t input;
    uint64_t queued;
    uint64_t replies;
    uint64_t confirmations;
    /* Violations reported, those that are not kept included. */
    uint64_t violations;
} sim_run_answer;

/* How many servers and clients there are, and the limits. */
typedef struct {
    uint64_t refusal;
    uint64_t servers;
    uint64_t clients;
    uint64_t log_indexes;
    uint64_t payload;
    uint64_t message;
    uint64_t events;
    uint64_t writes;
    uint64_t history;
} sim_settings_answer;

/* The length of the area for so many servers and clients and these limits. */
sim_length_answer sim_area_length(uint64_t servers, uint64_t clients, sim_limits limits);

/* The seed of a stream in a simulation; of a stream other than 5 server and incarnation are not looked at, but the
 * incarnation has 32 bits. */
sim_seed_answer sim_stream_seed(uint64_t seed, uint64_t stream, uint64_t server, uint64_t incarnation);

/* A random fault schedule for servers of one byte each, drawn with a generator of this state and written into a
 * lent list, 32 bytes an entry. */
sim_schedule_answer sim_chaos_schedule(const uint8_t *servers, size_t servers_length, sim_chaos chaos, uint64_t generator, uint8_t *list, size_t list_length);

/* A simulation begins, whatever was in the area before. */
sim_opened_answer sim_start(uint8_t *area, size_t area_length, sim_settings settings, sim_limits limits, uint64_t seed);

/* The first event at or before the deadline happens; where there is none, the time rises to the deadline. The bytes
 * of a message go to the buffer. */
sim_stepped_answer sim_step(uint8_t *area, size_t area_length, uint64_t deadline, uint8_t *buffer, size_t buffer_length);

/* The node has returned: whether it refused its input, and which leader it named. The input's writes are synced, or
 * cut. */
sim_sealed_answer sim_seal(uint8_t *area, size_t area_length, uint64_t refused, uint64_t present, uint64_t leader);

/* The outputs are over; the node's status. What is owed goes on. */
sim_opened_answer sim_end(uint8_t *area, size_t area_length, uint64_t role, uint64_t term, uint64_t present, uint64_t leader, uint64_t commit);

/* A command proposed at a server: a sequence number is used, whether or not it runs. */
sim_opened_answer sim_propose(uint8_t *area, size_t area_length, uint64_t server);

/* A timer fired at a server, whether or not it is pending. */
sim_opened_answer sim_fire_timer(uint8_t *area, size_t area_length, uint64_t server, uint64_t timer);

/* Leadership to be confirmed by a server. */
sim_opened_answer sim_confirm_leadership(uint8_t *area, size_t area_length, uint64_t server, uint64_t request);

/* A fault scheduled: its kind, two numbers, and a partition's groups, one byte each. */
sim_done_answer sim_schedule(uint8_t *area, size_t area_length, uint64_t time, uint64_t kind, uint64_t first, uint64_t second, const uint8_t *groups, size_t groups_length);

/* Term and vote written; the flag says whether there is a vote. */
sim_done_answer sim_write_hard_state(uint8_t *area, size_t area_length, uint64_t term, uint64_t present, uint64_t vote);

/* An entry put at an index of the log. */
sim_done_answer sim_write_put(uint8_t *area, size_t area_length, uint64_t index, uint64_t term, uint64_t kind, const uint8_t *payload, size_t payload_length);

/* The log truncated from an index on. */
sim_done_answer sim_write_truncate(uint8_t *area, size_t area_length, uint64_t from);

/* A message sent to a server, with so many log entries. */
sim_done_answer sim_output_send(uint8_t *area, size_t area_length, uint64_t to, const uint8_t *message, size_t message_length, uint64_t entries);

/* A timer set, in the place of one that is pending. */
sim_done_answer sim_output_set_timer(uint8_t *area, size_t area_length, uint64_t timer, uint64_t after);

/* A timer cancelled. */
sim_done_answer sim_output_cancel_timer(uint8_t *area, size_t area_length, uint64_t timer);

/* An entry applied. */
sim_done_answer sim_output_apply(uint8_t *area, size_t area_length, uint64_t index, uint64_t kind, const uint8_t *payload, size_t payload_length);

/* Leadership confirmed, with the read index. */
sim_done_answer sim_output_confirmed(uint8_t *area, size_t area_length, uint64_t request, uint64_t read_index);

/* Leadership lost. */
sim_done_answer sim_output_lost(uint8_t *area, size_t area_length, uint64_t request);

/* Every pair of logs compared. */
sim_done_answer sim_check_log_matching(uint8_t *area, size_t area_length);

/* Every acknowledged command looked for in what was applied. */
sim_done_answer sim_check_durability(uint8_t *area, size_t area_length);

/* A server's status, none while it is stopped or starting. */
sim_status_answer sim_read_status(const uint8_t *area, size_t area_length, uint64_t server);

/* A server's term and vote as written so far. */
sim_hard_state_answer sim_read_hard_state(const uint8_t *area, size_t area_length, uint64_t server);

/* The size of a server's log as written so far. */
sim_log_answer sim_read_log(const uint8_t *area, size_t area_length, uint64_t server);

/* An entry of a server's log; a command goes to the buffer. */
sim_entry_answer sim_read_entry(const uint8_t *area, size_t area_length, uint64_t server, uint64_t index, uint8_t *buffer, size_t buffer_length);

/* The running server that leads the highest term. */
sim_leader_answer sim_read_leader(const uint8_t *area, size_t area_length);

/* The highest index that a server has applied since it last started. */
sim_applied_answer sim_read_applied(const uint8_t *area, size_t area_length, uint64_t server);

/* The first payload that any server applied at an index; a command goes to the buffer. */
sim_applied_entry_answer sim_read_applied_entry(const uint8_t *area, size_t area_length, uint64_t index, uint8_t *buffer, size_t buffer_length);

/* The counters of the run. */
sim_metrics_answer sim_read_metrics(const uint8_t *area, size_t area_length);

/* What one server has sent. */
sim_sent_by_answer sim_read_sent_by(const uint8_t *area, size_t area_length, uint64_t server);

/* A client's reply, by its place in order of arrival, from 0. */
sim_reply_answer sim_read_reply(const uint8_t *area, size_t area_length, uint64_t place);

/* A confirmation, by its place in order of arrival, from 0. */
sim_confirmation_answer sim_read_confirmation(const uint8_t *area, size_t area_length, uint64_t place);

/* A kept violation, by its place in order of report, from 0. */
sim_violation_answer sim_read_violation(const uint8_t *area, size_t area_length, uint64_t place);

/* The run as a whole. */
sim_run_answer sim_read_run(const uint8_t *area, size_t area_length);

/* The counts by which a host sizes its buffers. */
sim_settings_answer sim_read_settings(const uint8_t *area, size_t area_length);

#endif
