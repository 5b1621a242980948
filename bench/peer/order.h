// The order of the base variables: each next one has many neighbours before it and few that are still to come.
#pragma once
#include "../relations.h"

// The base variables that each variable hangs on: itself, or what the conditions of its rules hang on, up to MOST of them.
static std::vector<std::set<int>> base_of(const Task &task) {
    const size_t MOST = 64;
    std::vector<std::set<int>> base(task.variables.size());
    for (int var : base_variables(task))
        base[var].insert(var);
    for (bool changed = true; changed;) {
        changed = false;
        for (const Rule &rule : task.rules)
            for (const Fact &fact : rule.conds)
                for (int var : std::set<int>(base[fact.var]))
                    if (base[rule.var].size() < MOST)
                        changed |= base[rule.var].insert(var).second;
    }
    return base;
}

// Of each variable its neighbours: an operator that changes one asks for the other, or changes both.
static std::vector<std::set<int>> neighbours(const Task &task) {
    const size_t DENSE = 20000;
    std::vector<std::set<int>> base = base_of(task), near(task.variables.size());
    for (const Operator &op : task.operators) {
        std::set<int> changed, all;
        auto read = [&](const vector<Fact> &facts) {
            for (const Fact &fact : facts)
                all.insert(base[fact.var].begin(), base[fact.var].end());
        };
        read(op.prevail);
        for (const Effect &effect : op.effects) {
            changed.insert(effect.var);
            read(effect.conds);
        }
        all.insert(changed.begin(), changed.end());
        if (changed.size() * all.size() > DENSE)
            continue;
        for (int a : changed)
            for (int b : all)
                if (a != b) {
                    near[a].insert(b);
                    near[b].insert(a);
                }
    }
    return near;
}

// The variable of most neighbours comes first. Then, of those with a neighbour that is placed, the one that has most neighbours placed
// less those that are not.
static vector<int> hub_order(const Task &task) {
    vector<int> left = base_variables(task), order, placed(task.variables.size());
    if (left.size() < 3 || left.size() > 4000)
        return left;
    std::vector<std::set<int>> near = neighbours(task);
    auto rank = [&](int var) {
        int all = near[var].size();
        return order.empty() ? std::make_pair(true, all) : std::make_pair(placed[var] > 0, 2 * placed[var] - all);
    };
    while (!left.empty()) {
        auto next = std::max_element(left.begin(), left.end(), [&](int a, int b) { return rank(a) < rank(b); });
        order.push_back(*next);
        for (int other : near[*next])
            placed[other]++;
        left.erase(next);
    }
    return order;
}
