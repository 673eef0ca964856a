/* Over the proved code. The kit's compiler passes structs in the way of x86-64, and so is this file compiled, to the same kind of module: the two
   agree on any processor that the modules are then compiled for. `bindings/build` names the proved calls `proved_...`. */
#define threshpetal_judge proved_threshpetal_judge
#define threshpetal_handle_update proved_threshpetal_handle_update
#define threshpetal_ordering_eligibility proved_threshpetal_ordering_eligibility
#define threshpetal_parents_of proved_threshpetal_parents_of
#define threshpetal_children_of proved_threshpetal_children_of
#define threshpetal_validate_assignment proved_threshpetal_validate_assignment
#define threshpetal_new_session proved_threshpetal_new_session
#define threshpetal_is_resolved proved_threshpetal_is_resolved
#define threshpetal_resolved_name proved_threshpetal_resolved_name
#define threshpetal_controller_url proved_threshpetal_controller_url
#define threshpetal_controller_url_tls proved_threshpetal_controller_url_tls
#define threshpetal_kind_of proved_threshpetal_kind_of
#define threshpetal_default_limits proved_threshpetal_default_limits
#define threshpetal_needs_to_update proved_threshpetal_needs_to_update
#define threshpetal_needs_to_order proved_threshpetal_needs_to_order
#include "carry.h"

void carry_judge(threshpetal_refusal *out, uint64_t epoch, uint64_t size, const threshpetal_limits *limits, JUDGE) {
    *out = threshpetal_judge(epoch, size, *limits, JUDGE_LENT);
}
void carry_update(threshpetal_updated *out, threshpetal_session *session, const threshpetal_update *update, const threshpetal_limits *limits, JUDGE, CHANGES) {
    *out = threshpetal_handle_update(session, *update, *limits, JUDGE_LENT, CHANGES_LENT);
}
void carry_ordering(threshpetal_ordering *out, ORDER(uint64_t)) { *out = threshpetal_ordering_eligibility(ORDER_LENT); }
void carry_parents(threshpetal_stretch *out, HELD) { *out = threshpetal_parents_of(HELD_LENT); }
void carry_children(threshpetal_stretch *out, HELD) { *out = threshpetal_children_of(HELD_LENT); }
void carry_assignment(threshpetal_refusal *out, const threshpetal_assigned *list, size_t list_len, TABLE(rows), size_t n, uint64_t dag_epoch, uint64_t epoch) {
    *out = threshpetal_validate_assignment(list, list_len, LENT(rows), n, dag_epoch, epoch);
}
void carry_new_session(threshpetal_session *out, uint64_t id) { *out = threshpetal_new_session(id); }
void carry_is_resolved(uint64_t *out, const threshpetal_session *session) { *out = threshpetal_is_resolved(*session); }
void carry_resolved_name(threshpetal_name *out, const threshpetal_session *session) { *out = threshpetal_resolved_name(*session); }
void carry_controller(threshpetal_name *out, const threshpetal_session *session) { *out = threshpetal_controller_url(*session); }
void carry_secure(threshpetal_name *out, const threshpetal_session *session) { *out = threshpetal_controller_url_tls(*session); }
void carry_kind(threshpetal_kind *out, uint64_t number) { *out = threshpetal_kind_of(number); }
void carry_limits(threshpetal_limits *out) { *out = threshpetal_default_limits(); }
void carry_update_needs(threshpetal_update_needs *out, size_t n, size_t p, size_t k, size_t h) { *out = threshpetal_needs_to_update(n, p, k, h); }
void carry_ordering_needs(threshpetal_ordering_needs *out, size_t h, size_t g) { *out = threshpetal_needs_to_order(h, g); }
