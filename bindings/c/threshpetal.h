/* Threshpetal's calls for a host in C, or in any language that speaks C's calls.

   Everything is 64-bit words that the caller lends for the length of a call: tables that are read (`const uint64_t *`), areas that are written
   (`uint64_t *`), each with its length in words behind it. The library allocates nothing, keeps nothing, calls nothing but memset and has no state,
   so any thread may call at any time with words that no other thread is writing. Two areas of one call must not overlap, nor an area and a table;
   two tables may. A pointer may be anything that is aligned and not NULL where its length is 0.

   TABLES
     segment row    11 words: id, hash start, hash end, state (1 Active, 2 Sealed), created epoch, seal flag, seal epoch, legacy flag,
                    legacy text, parent count, child count
     edge table     row after row, the row's parents and then its children, a word an id
     placement row  4 words: id, URL text, TLS flag, TLS text
     held row       15 words: the segment row, then URL flag, URL text, TLS flag, TLS text; held rows ascend by id, their edges follow in
                    the same order
   A flag is 0 (absent: the word after it is not read) or 1. A text is a number of the caller's: 0 is the empty text, any other number a text
   that is not empty.

   AREAS, and the words that each must have (threshpetal_needs_to_update and threshpetal_needs_to_order say it for given counts)
     work           32 for each segment row, placement row, edge word and held row together; for an ordering query, 32 for each held row and
                    held edge word
     held           15 a row             held rows
     links          1 an edge word       held edges
     order          1 a row              ids, parents before children
     added          1 a row              removed: 1 a held row
     splits, merges 2 an edge word each  pairs
     first, second  held edge words plus one, each
   An area may be longer than its need; past the new contents its words stay, but for the work area, which is all zero after any call that
   got past refusals 1 and 2. It need not be cleared before a call.

   REFUSALS. A number of 1 to 63 with up to four values; 0 is no refusal and carries zeros, and values that a number does not carry are 0.
   The numbers are those of the rules (crates/rules), named after the errors of the Rust that the library rewrites. A refusal changes no lent
   word but the work area, and 51's list. By family (threshpetal_kind_of):
     1  added       1 the words are no tables (a length that is no multiple of a row, counts that don't make the edge table, a flag that is
                    neither 0 nor 1, a hash or state above 32 bits, held rows that don't ascend); 2 an area is too short. Nothing was changed,
                    the work area included: mend the call, lend more words, and call again.
     2  layout      3 to 36: the broker sent a layout that is none. Nothing is held of it, and what was held stays.
     3  session     40 an update for another session, 41 the broker's error in place of a layout, 42 neither layout nor error. Nothing changes.
     4  ordering    50 the segment is not in the held layout; 51 it can't be shown that it may be read: the ids that are in the way stand at
                    the front of `first`
     5  assignment  60 another epoch, 61 an unknown segment, 62 another range, 63 a legacy segment: ask for a new assignment */
#ifndef THRESHPETAL_H
#define THRESHPETAL_H

#include <stdbool.h>
#include <stddef.h>
#include <stdint.h>

#ifdef __cplusplus
extern "C" {
#endif

/* number 0: accepted */
typedef struct {
    uint64_t number, a, b, c, d;
} threshpetal_refusal;

/* How large a layout may be. */
typedef struct {
    uint64_t segments, edges, depth, size;
} threshpetal_limits;

/* A text that may be absent. */
typedef struct {
    bool present;
    uint64_t text;
} threshpetal_name;

/* What is known of one watched topic. Made by threshpetal_new_session, written by threshpetal_handle_update; the caller keeps it beside its held
   areas and may read it. `rows` and `edges` say how many held rows and held edge words stand at the front of `held` and `links`; where `held` is
   false, `epoch`, `rows` and `edges` count as 0. */
typedef struct {
    uint64_t id;
    bool held;
    uint64_t epoch;
    size_t rows, edges;
    threshpetal_name resolved, controller, secure;
} threshpetal_session;

/* An update of the broker, but for its tables: `layout` says that it brings one, of this epoch and this encoded size in bytes; `error` that it
   brings the broker's error (code: the signed 32-bit number, as its 32 bits). */
typedef struct {
    uint64_t session;
    bool layout;
    uint64_t epoch, size;
    bool error;
    uint32_t code;
    threshpetal_name message, resolved, controller, secure;
} threshpetal_update;

/* One assigned segment and the range of hashes that the assignment gives it. */
typedef struct {
    uint64_t id;
    uint32_t start, end;
} threshpetal_assigned;

/* family: 0 none, 1 added, 2 layout, 3 session, 4 ordering, 5 assignment; values: how many of a, b, c, d a refusal of this number carries */
typedef struct {
    uint64_t family, values;
} threshpetal_kind;

/* outcome: 0 refused (51 among them), 1 blocked, 2 eligible, 3 broker-managed; the last two may be read. `first` and `second` say how many ids,
   ascending, stand at the front of the two lists. `read` counts the parent references that were read. */
typedef struct {
    uint64_t outcome;
    threshpetal_refusal refusal;
    size_t first, second;
    uint64_t read;
} threshpetal_ordering;

/* outcome: 0 refused, 1 stale, 2 accepted. Accepted: the layout's epoch; how many ids stand at the front of `added` and `removed`, and how many
   pairs at the front of `splits` (parent, child) and `merges` (child, parent), all ascending; reason: 0 split, 1 merge, 2 removed, 3 unknown;
   handover: how many hashes the added Active segments have together. All of these are 0 unless accepted. */
typedef struct {
    uint64_t outcome;
    threshpetal_refusal refusal;
    uint64_t epoch;
    size_t added, removed, splits, merges;
    uint64_t reason, handover;
} threshpetal_updated;

/* Where a stretch of ids begins in the held edges, and how many it has; both 0 where refused. */
typedef struct {
    threshpetal_refusal refusal;
    size_t start, length;
} threshpetal_stretch;

/* Words that each area must have. A need above 2^64 - 1 is told as 2^64 - 1. */
typedef struct {
    uint64_t work, held, links, order, added, removed, splits, merges;
} threshpetal_update_needs;

typedef struct {
    uint64_t work, first, second;
} threshpetal_ordering_needs;

/* Judges a layout: 1 to 35, or 0. `rows`, `edges` and `places` are its tables as the broker sent them, `size` its encoded size in bytes.
   Accepted: the layout's held rows stand at the front of `held`, their edges at the front of `links`, and its ids in the order in which they may
   be read, parents before children, at the front of `order`; as many as `rows` has rows and `edges` has words.
   Refused: `held`, `links` and `order` are as they were; by 1 and 2 `work` too. */
threshpetal_refusal threshpetal_judge(uint64_t epoch, uint64_t size, threshpetal_limits limits,
                                      const uint64_t *rows, size_t rows_len, const uint64_t *edges, size_t edges_len,
                                      const uint64_t *places, size_t places_len,
                                      uint64_t *work, size_t work_len, uint64_t *held, size_t held_len,
                                      uint64_t *links, size_t links_len, uint64_t *order, size_t order_len);

/* An update of the broker to a session, which is written where it stands. In this order: 40 for another session's id; without a layout 41 (a: code,
   b: message text or 0) or 42; stale for an epoch at or below the held one; 1 and 2; then the layout is judged, 3 to 35.
   Accepted: `held`, `links` and `order` have the new layout as after threshpetal_judge, the four lists say what changed, and `session` has the new
   counts, epoch and names (an absent resolved name keeps the old one, absent URLs clear theirs).
   Refused or stale: session, held areas and lists are as they were, and so is `work` but for 3 to 35, which leave it all zero.
   `held` and `links` must be the areas that the last accepted update of this session filled, with all their words; lend longer ones by copying. */
threshpetal_updated threshpetal_handle_update(threshpetal_session *session, threshpetal_update update, threshpetal_limits limits,
                                              const uint64_t *rows, size_t rows_len, const uint64_t *edges, size_t edges_len,
                                              const uint64_t *places, size_t places_len,
                                              uint64_t *work, size_t work_len, uint64_t *held, size_t held_len,
                                              uint64_t *links, size_t links_len, uint64_t *order, size_t order_len,
                                              uint64_t *added, size_t added_len, uint64_t *removed, size_t removed_len,
                                              uint64_t *splits, size_t splits_len, uint64_t *merges, size_t merges_len);

/* May `segment` be read, now that the segments of `history` were owned here and those of `completed` were read to their end? Both lists may stand
   in any order and repeat ids; `segment` itself need not be in either. `rows`, `edges`, `h` and `g` are held rows and edges as an accepted layout
   left them, with their counts. `broker_managed`: the broker answers for ancestors that were never owned here; else 51 lists them.
   blocked: ancestors that were owned and not completed stand in `first`, those never owned in `second`. broker-managed: those never owned stand in
   `second`. Refused by 1, 2 or 50: nothing is written. 51: `refusal.a` is the segment, `first` has the ids in the way. */
threshpetal_ordering threshpetal_ordering_eligibility(const uint64_t *rows, size_t rows_len, const uint64_t *edges, size_t edges_len,
                                                      size_t h, size_t g, bool broker_managed, uint64_t segment,
                                                      const uint64_t *history, size_t history_len,
                                                      const uint64_t *completed, size_t completed_len,
                                                      uint64_t *work, size_t work_len, uint64_t *first, size_t first_len,
                                                      uint64_t *second, size_t second_len);

/* The parents of `segment`, and its children: `length` ids from edges[start] on. Refused by 1 or by 50 for an unknown segment. Whatever is
   lent, start + length is at most g. */
threshpetal_stretch threshpetal_parents_of(const uint64_t *rows, size_t rows_len, const uint64_t *edges, size_t edges_len,
                                           size_t h, size_t g, uint64_t segment);
threshpetal_stretch threshpetal_children_of(const uint64_t *rows, size_t rows_len, const uint64_t *edges, size_t edges_len,
                                            size_t h, size_t g, uint64_t segment);

/* An assignment of epoch `epoch` against n held rows of epoch `dag_epoch` (both 0 where no layout is held): 1, 60, then each record in list order
   through 61, 62 and 63; the first refusal, or 0. */
threshpetal_refusal threshpetal_validate_assignment(const threshpetal_assigned *list, size_t list_len,
                                                    const uint64_t *rows, size_t rows_len, size_t n, uint64_t dag_epoch, uint64_t epoch);

/* A session before its first update: it holds nothing and knows no names. */
threshpetal_session threshpetal_new_session(uint64_t id);

/* Has a layout been accepted? */
bool threshpetal_is_resolved(threshpetal_session session);

/* The names that the last accepted layouts brought. */
threshpetal_name threshpetal_resolved_name(threshpetal_session session);
threshpetal_name threshpetal_controller_url(threshpetal_session session);
threshpetal_name threshpetal_controller_url_tls(threshpetal_session session);

/* Family and count of values of a refusal number; nothing of a number past 63. */
threshpetal_kind threshpetal_kind_of(uint64_t number);

/* 4,096 segments, 16,384 edges, depth 256, 1,048,576 bytes. */
threshpetal_limits threshpetal_default_limits(void);

/* For n segment rows, p placement rows and k edge words that come beside h held rows. The judge needs the first four, with h = 0. */
threshpetal_update_needs threshpetal_needs_to_update(size_t n, size_t p, size_t k, size_t h);

/* For an ordering query over h held rows with g held edge words. */
threshpetal_ordering_needs threshpetal_needs_to_order(size_t h, size_t g);

#ifdef __cplusplus
}
#endif

#endif
