// Empty std::vectors lent to every call that takes slices: their data() is NULL, which ARBITER_LEND turns into an address. C++11.
#include "arbiter.h"

#include <cstdio>
#include <cstdlib>
#include <vector>

static void check(bool agrees, const char *what) {
    if (agrees) return;
    std::printf("vector_test: %s\n", what);
    std::exit(1);
}

int main() {
    const std::vector<uint32_t> set = {0x20000000, 0x50000001}; // one task without actions: one state, an empty route
    const std::vector<uint32_t> no_set;
    std::vector<uint32_t> no_plan;
    std::vector<uint8_t> no_map, no_route, map(1, ARBITER_NOT_ANALYSED);
    const std::vector<uint8_t> &no_map_to_read = no_map;

    check(arbiter_read(ARBITER_LEND(no_set.data()), no_set.size()).refusal == ARBITER_NO_WORDS, "read without words");
    check(arbiter_read(ARBITER_LEND(set.data()), set.size()).value == map.size(), "read");
    arbiter_analysis no_room = arbiter_analyse(set.data(), set.size(), ARBITER_LEND(no_map.data()), 0, ARBITER_LEND(no_plan.data()), 0);
    check(no_room.answer.refusal == ARBITER_MAP_TOO_SHORT, "analyse without a map");
    arbiter_analysis no_words = arbiter_analyse(set.data(), set.size(), map.data(), map.size(), ARBITER_LEND(no_plan.data()), 0);
    check(no_words.answer.refusal == ARBITER_PLAN_TOO_SHORT && map[0] == ARBITER_OPEN, "analyse without a plan");
    check(no_words.quotient == 0 && no_words.remainder == 0, "parts per thousand without a plan");

    arbiter_record record = arbiter_fresh();
    arbiter_answer bid = arbiter_bid(&record, set.data(), set.size(), ARBITER_LEND(no_map_to_read.data()), 0, 0, 1, 1);
    check(bid.refusal == ARBITER_MAP_TOO_SHORT, "bid without a map");
    check(arbiter_again(&record, ARBITER_LEND(no_set.data()), 0).refusal == ARBITER_NO_WORDS, "again without words");
    arbiter_answer route = arbiter_route(record, set.data(), set.size(), map.data(), map.size(), ARBITER_LEND(no_route.data()), 0);
    check(route.kind == ARBITER_ROUTED && route.value == 0, "an empty route");

    const std::vector<uint32_t> plan = {0x50000000}, &no_plan_to_read = no_plan;
    const arbiter_state state = {};
    arbiter_answer empty = arbiter_locate(state, ARBITER_LEND(no_plan_to_read.data()), no_plan_to_read.size(), 1);
    check(empty.refusal == ARBITER_OUTSIDE_LAYOUT && empty.value == 0, "locate without words");
    check(arbiter_locate(state, ARBITER_LEND(plan.data()), plan.size(), 1).kind == ARBITER_IN_NO_BOX, "locate");

    const std::vector<uint32_t> unclaimed = {0x10000008, 0x20000000, 0x50000002};
    std::vector<uint32_t> no_clean, clean(2);
    check(arbiter_clean(ARBITER_LEND(no_set.data()), no_set.size(), clean.data(), clean.size()).refusal == ARBITER_NO_WORDS, "clean without words");
    arbiter_answer no_slice = arbiter_clean(unclaimed.data(), unclaimed.size(), ARBITER_LEND(no_clean.data()), no_clean.size());
    check(no_slice.refusal == ARBITER_CLEAN_TOO_SHORT && no_slice.value == clean.size(), "clean without a slice");
    check(arbiter_clean(unclaimed.data(), unclaimed.size(), clean.data(), clean.size()).kind == ARBITER_CLEANED && clean == set, "clean");

    const std::vector<uint8_t> no_order, order(1, 0);
    arbiter_trial_result no_tasks = arbiter_trial(set.data(), set.size(), map.data(), map.size(), ARBITER_LEND(no_order.data()), 0, 1, 1, 1);
    check(no_tasks.answer.refusal == ARBITER_BAD_ORDER && no_tasks.answer.value == 0, "a trial without an order");
    arbiter_trial_result no_states = arbiter_trial(set.data(), set.size(), ARBITER_LEND(no_map_to_read.data()), 0, order.data(), order.size(), 1, 1, 1);
    check(no_states.answer.refusal == ARBITER_MAP_TOO_SHORT && no_states.answer.value == map.size(), "a trial without a map");
    arbiter_trial_result trial = arbiter_trial(set.data(), set.size(), map.data(), map.size(), order.data(), order.size(), 9, 1, 1);
    check(trial.answer.kind == ARBITER_TRIED && trial.answer.value == 0, "a trial of a task without actions");

    check(ARBITER_LEND(no_plan.data()) != nullptr && ARBITER_LEND(map.data()) == map.data(), "the address that is lent");
    return 0;
}
