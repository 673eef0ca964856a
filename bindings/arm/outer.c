/* The calls of threshpetal.h, compiled for Arm, so that they are called in its own way. */
#include "carry.h"

threshpetal_refusal threshpetal_judge(uint64_t epoch, uint64_t size, threshpetal_limits limits, JUDGE) {
    threshpetal_refusal out;
    carry_judge(&out, epoch, size, &limits, JUDGE_LENT);
    return out;
}
threshpetal_updated threshpetal_handle_update(threshpetal_session *session, threshpetal_update update, threshpetal_limits limits, JUDGE, CHANGES) {
    threshpetal_updated out;
    carry_update(&out, session, &update, &limits, JUDGE_LENT, CHANGES_LENT);
    return out;
}
threshpetal_ordering threshpetal_ordering_eligibility(ORDER(bool)) {
    threshpetal_ordering out;
    carry_ordering(&out, ORDER_LENT);
    return out;
}
threshpetal_stretch threshpetal_parents_of(HELD) {
    threshpetal_stretch out;
    carry_parents(&out, HELD_LENT);
    return out;
}
threshpetal_stretch threshpetal_children_of(HELD) {
    threshpetal_stretch out;
    carry_children(&out, HELD_LENT);
    return out;
}
threshpetal_refusal threshpetal_validate_assignment(const threshpetal_assigned *list, size_t list_len, TABLE(rows), size_t n, uint64_t dag_epoch, uint64_t epoch) {
    threshpetal_refusal out;
    carry_assignment(&out, list, list_len, LENT(rows), n, dag_epoch, epoch);
    return out;
}
threshpetal_session threshpetal_new_session(uint64_t id) {
    threshpetal_session out;
    carry_new_session(&out, id);
    return out;
}
bool threshpetal_is_resolved(threshpetal_session session) {
    uint64_t out;
    carry_is_resolved(&out, &session);
    return out != 0;
}
threshpetal_name threshpetal_resolved_name(threshpetal_session session) {
    threshpetal_name out;
    carry_resolved_name(&out, &session);
    return out;
}
threshpetal_name threshpetal_controller_url(threshpetal_session session) {
    threshpetal_name out;
    carry_controller(&out, &session);
    return out;
}
threshpetal_name threshpetal_controller_url_tls(threshpetal_session session) {
    threshpetal_name out;
    carry_secure(&out, &session);
    return out;
}
threshpetal_kind threshpetal_kind_of(uint64_t number) {
    threshpetal_kind out;
    carry_kind(&out, number);
    return out;
}
threshpetal_limits threshpetal_default_limits(void) {
    threshpetal_limits out;
    carry_limits(&out);
    return out;
}
threshpetal_update_needs threshpetal_needs_to_update(size_t n, size_t p, size_t k, size_t h) {
    threshpetal_update_needs out;
    carry_update_needs(&out, n, p, k, h);
    return out;
}
threshpetal_ordering_needs threshpetal_needs_to_order(size_t h, size_t g) {
    threshpetal_ordering_needs out;
    carry_ordering_needs(&out, h, g);
    return out;
}
