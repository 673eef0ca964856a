/* The same calls with structs behind pointers, which every processor passes alike: arm/inner.c has them over the proved code, arm/outer.c calls
   them under the names of threshpetal.h. */
#include "../c/threshpetal.h"

#define TABLE(name) const uint64_t *name, size_t name##_len
#define AREA(name) uint64_t *name, size_t name##_len
#define LENT(name) name, name##_len

#define JUDGE TABLE(rows), TABLE(edges), TABLE(places), AREA(work), AREA(held), AREA(links), AREA(order)
#define JUDGE_LENT LENT(rows), LENT(edges), LENT(places), LENT(work), LENT(held), LENT(links), LENT(order)
#define CHANGES AREA(added), AREA(removed), AREA(splits), AREA(merges)
#define CHANGES_LENT LENT(added), LENT(removed), LENT(splits), LENT(merges)
#define ORDER(flag) TABLE(rows), TABLE(edges), size_t h, size_t g, flag managed, uint64_t segment, TABLE(history), TABLE(completed), AREA(work), AREA(first), AREA(second)
#define ORDER_LENT LENT(rows), LENT(edges), h, g, managed, segment, LENT(history), LENT(completed), LENT(work), LENT(first), LENT(second)
#define HELD TABLE(rows), TABLE(edges), size_t h, size_t g, uint64_t segment
#define HELD_LENT LENT(rows), LENT(edges), h, g, segment

void carry_judge(threshpetal_refusal *out, uint64_t epoch, uint64_t size, const threshpetal_limits *limits, JUDGE);
void carry_update(threshpetal_updated *out, threshpetal_session *session, const threshpetal_update *update, const threshpetal_limits *limits, JUDGE, CHANGES);
void carry_ordering(threshpetal_ordering *out, ORDER(uint64_t));
void carry_parents(threshpetal_stretch *out, HELD);
void carry_children(threshpetal_stretch *out, HELD);
void carry_assignment(threshpetal_refusal *out, const threshpetal_assigned *list, size_t list_len, TABLE(rows), size_t n, uint64_t dag_epoch, uint64_t epoch);
void carry_new_session(threshpetal_session *out, uint64_t id);
void carry_is_resolved(uint64_t *out, const threshpetal_session *session);
void carry_resolved_name(threshpetal_name *out, const threshpetal_session *session);
void carry_controller(threshpetal_name *out, const threshpetal_session *session);
void carry_secure(threshpetal_name *out, const threshpetal_session *session);
void carry_kind(threshpetal_kind *out, uint64_t number);
void carry_limits(threshpetal_limits *out);
void carry_update_needs(threshpetal_update_needs *out, size_t n, size_t p, size_t k, size_t h);
void carry_ordering_needs(threshpetal_ordering_needs *out, size_t h, size_t g);
