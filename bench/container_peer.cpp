// The workloads of the crate `mi_bench` on a Boost.MultiIndex container: the same lines are read, the same numbers drawn, and the same
// lines written. A change that is taken back keeps a copy of the record, and one that was erased also who stood behind it in the list.
#include "accounts.hpp"
#include "loops.hpp"

#include <cstdio>
#include <iostream>
#include <optional>
#include <string>
#include <vector>

#include <boost/version.hpp>

class Table {
public:
    std::uint64_t size() const { return accounts_.size(); }

    std::optional<std::uint64_t> insert(const std::string &owner, std::int64_t balance, bool vip) {
        auto [it, is_new] = by_id().insert(Account{next_id_, owner, balance, vip, arrivals_, arrivals_, arrivals_});
        if (!is_new) {
            return {};
        }
        arrivals_++;
        return next_id_++;
    }

    std::optional<std::int64_t> balance(std::int64_t id) const {
        auto it = place_of(accounts_, id);
        return it == accounts_.get<ById>().end() ? std::nullopt : std::optional(it->balance);
    }

    bool add(std::int64_t id, std::int64_t more) {
        auto it = place_of(accounts_, id);
        std::int64_t balance;
        if (it == by_id().end() || __builtin_add_overflow(it->balance, more, &balance)) {
            return false;
        }
        put(it, balance);
        return true;
    }

    bool add_and_undo(std::int64_t id, std::int64_t more) {
        auto it = place_of(accounts_, id);
        std::int64_t balance;
        if (it == by_id().end() || __builtin_add_overflow(it->balance, more, &balance)) {
            return false;
        }
        Account old = *it;
        put(it, balance);
        by_id().modify(it, [&](Account &account) { account = std::move(old); });
        arrivals_--;
        return true;
    }

    bool erase_and_undo(std::int64_t id) {
        auto it = place_of(accounts_, id);
        if (it == by_id().end()) {
            return false;
        }
        auto &line = accounts_.get<Line>();
        const auto next = std::next(accounts_.project<Line>(it));
        const bool is_last = next == line.end();
        const std::int64_t behind = is_last ? 0 : next->id;
        Account old = *it;
        by_id().erase(it);
        auto again = by_id().insert(std::move(old)).first;
        line.relocate(is_last ? line.end() : accounts_.project<Line>(place_of(accounts_, behind)), accounts_.project<Line>(again));
        return true;
    }

    std::uint64_t digest() const {
        return digest_of(accounts_.get<ByBalance>()) ^ left(digest_of(accounts_.get<ByClass>()), 1) ^ left(digest_of(accounts_.get<Line>()), 2);
    }

private:
    using Ids = Accounts::index<ById>::type;

    Ids &by_id() { return accounts_.get<ById>(); }

    void put(Ids::iterator it, std::int64_t balance) {
        const std::int64_t now = arrivals_++;
        by_id().modify(it, [&](Account &account) {
            const bool is_other = account.balance != balance;
            account.balance_at = is_other ? now : account.balance_at;
            account.class_at = is_other ? now : account.class_at;
            account.balance = balance;
        });
    }

    template <class In>
    static std::uint64_t digest_of(const In &in) {
        std::uint64_t sum = 0;
        for (const Account &it : in) {
            sum = (sum * 31 + static_cast<std::uint64_t>(it.id)) * 31 + static_cast<std::uint64_t>(it.balance);
        }
        return sum;
    }

    static std::uint64_t left(std::uint64_t it, int places) { return it << places | it >> (64 - places); }

    Accounts accounts_;
    std::int64_t next_id_ = 0, arrivals_ = 0;
};

struct Done {
    std::uint64_t count = 0, sum = 0;

    void add(std::optional<std::uint64_t> made) {
        count += made.has_value();
        sum += made.value_or(0);
    }
};

class Bench {
public:
    std::uint64_t size() const { return table_.size(); }

    Done run(const std::string &word, std::uint64_t calls) {
        if (word == "clock") {
            return {calls, busy_};
        }
        const std::uint64_t began = on_processor();
        const Done done = repeat(word, calls);
        busy_ = on_processor() - began;
        return done;
    }

private:
    Done repeat(const std::string &word, std::uint64_t calls) {
        Random random;
        Done done;
        if (word == "prepare") {
            for (std::uint64_t n = 0; n < calls; n++) {
                owners_.push_back(owner(static_cast<std::int64_t>(n)));
            }
            done.count = calls;
        } else if (word == "insert") {
            for (const std::string &owner : owners_) {
                const auto balance = static_cast<std::int64_t>(random.below(owners_.size()));
                const bool vip = random.below(10) < 3;
                done.add(table_.insert(owner, balance, vip));
            }
        } else if (word == "get") {
            each(calls, random, done, [&](std::uint64_t id) -> std::optional<std::uint64_t> { return table_.balance(static_cast<std::int64_t>(id)); });
        } else if (word == "modify") {
            each(calls, random, done, [&](std::uint64_t id) { return done_if(table_.add(static_cast<std::int64_t>(id), more(random)), id); });
        } else if (word == "modify_back") {
            each(calls, random, done, [&](std::uint64_t id) { return done_if(table_.add_and_undo(static_cast<std::int64_t>(id), more(random)), id); });
        } else if (word == "erase_back") {
            each(calls, random, done, [&](std::uint64_t id) { return done_if(table_.erase_and_undo(static_cast<std::int64_t>(id)), id); });
        } else if (word == "digest") {
            done = {table_.size(), table_.digest()};
        }
        return done;
    }

    static std::int64_t more(Random &random) { return static_cast<std::int64_t>(random.below(101)) - 50; }

    static std::optional<std::uint64_t> done_if(bool is_done, std::uint64_t id) { return is_done ? std::optional(id) : std::nullopt; }

    template <class Call>
    void each(std::uint64_t calls, Random &random, Done &done, Call call) {
        const std::uint64_t size = table_.size();
        for (std::uint64_t n = 0; n < calls; n++) {
            done.add(call(random.below(size)));
        }
    }

    Table table_;
    std::vector<std::string> owners_;
    std::uint64_t busy_ = 0;
};

int main(int count, char **words) {
    if (count > 1 && std::string(words[1]) == "--version") {
        std::printf("Boost %d.%d\n", BOOST_VERSION / 100000, BOOST_VERSION / 100 % 1000);
        return 0;
    }
    Bench bench;
    std::string word;
    std::uint64_t calls;
    while (std::cin >> word >> calls) {
        const Done done = bench.run(word, calls);
        std::cout << done.count << ' ' << done.sum << std::endl;
    }
    std::cout << bench.size() << " records" << std::endl;
}
