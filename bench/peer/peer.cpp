// A planner like this one, on BuDDy: the cheapest plans of a task, beside which bench/plan.sh measures whole runs. It is called as
// `peer plan TASK --k K --mode topk|loopless|unordered`, and prints plans and ends as `symk` does. The file is taken to be lawful, and
// costs of plans to stay below 2^62. Of the choices that were tried it makes the quickest: bench/README.md lists them. With `--by ranks`
// it searches by least costs from both ends in place of one cost after the other.
#include "loopless.h"
#include "ranks.h"
#include <cstring>

struct Words {
    const char *task = "", *mode = "topk", *by = "layers";
    unsigned long long k = 0;
};

static Words read_words(int count, char **words) {
    Words all;
    if (count < 3 || strcmp(words[1], "plan") != 0)
        return all;
    all.task = words[2];
    for (int at = 3; at + 1 < count; at += 2) {
        if (strcmp(words[at], "--k") == 0)
            all.k = strtoull(words[at + 1], nullptr, 10);
        if (strcmp(words[at], "--mode") == 0)
            all.mode = words[at + 1];
        if (strcmp(words[at], "--by") == 0)
            all.by = words[at + 1];
    }
    return all;
}

// Prints plans, until there are as many as wanted.
struct Printer {
    const Task &task;
    unsigned long long wanted, count = 0;
    bool unit = true;
    Printer(const Task &task, unsigned long long wanted) : task(task), wanted(wanted) {
        for (const Operator &op : task.operators)
            unit &= op.cost == 1;
    }
    bool print(const vector<int> &plan) {
        Cost cost = 0;
        printf("; plan %llu\n; ops", ++count);
        for (int op : plan) {
            printf(" %d", op);
            cost += task.operators[op].cost;
        }
        putchar('\n');
        for (int op : plan)
            printf("(%s)\n", task.operators[op].name.c_str());
        printf("; cost = %llu (%s cost)\n", (unsigned long long)cost, unit ? "unit" : "general");
        return count < wanted;
    }
};

static bool list(const Symbols &symbols, const string &mode, const string &by, Printer &printer) {
    std::set<vector<int>> classes;
    Emit emit = [&](const vector<int> &plan) {
        vector<int> sorted = plan;
        if (mode == "unordered") {
            std::sort(sorted.begin(), sorted.end());
            if (!classes.insert(sorted).second)
                return true;
        }
        return printer.print(plan);
    };
    if (by == "ranks")
        return RankedPlans(symbols, emit, mode == "loopless").run();
    return mode == "loopless" ? LooplessPlans(symbols, emit).run() : TopPlans(symbols, emit).run();
}

int main(int count, char **words) {
    Words asked = read_words(count, words);
    if (asked.k == 0)
        return 2;
    Task task = read_task(asked.task);
    bdd_init(1000000, 250000);
    bdd_gbc_hook(nullptr);
    bdd_setmaxincrease(20000000);
    bdd_setcacheratio(4);
    Symbols symbols(task);
    Printer printer(task, asked.k);
    bool reached = list(symbols, asked.mode, asked.by, printer);
    printf("; %s %llu\n", reached ? "reached" : "exhausted", printer.count);
    fflush(stdout);
    _Exit(reached ? 0 : 10);
}
