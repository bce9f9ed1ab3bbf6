// A Boost.MultiIndex container in the loops of `embedded.cpp`. A session is a copy of the row, which is dropped or put back.
#include "accounts.hpp"
#include "embedded.hpp"

#include <boost/version.hpp>

namespace {

class Boost : public System {
public:
    void insert(const std::string &owner, std::int64_t balance, bool vip) override {
        if (!ids().insert(Account{next_, owner, balance, vip, arrivals_, arrivals_, arrivals_}).second) {
            stop("unique");
        }
        next_++, arrivals_++;
    }

    void erase(std::int64_t id) override { ids().erase(found(id)); }

    void add(std::int64_t id, std::int64_t more) override { put(found(id), more); }

    void add_undone(std::int64_t id, std::int64_t more) override {
        auto it = found(id);
        Account old = *it;
        put(it, more);
        ids().modify(it, [&](Account &account) { account = std::move(old); });
        arrivals_--;
    }

    void add_squashed(std::int64_t id, std::int64_t more) override {
        auto it = found(id);
        old_ = *it;
        put(it, more);
    }

    void start_and_undo() override {}

    std::int64_t balance(std::int64_t id) override { return found(id)->balance; }

    std::int64_t find(const std::string &owner) override {
        const auto &index = accounts_.get<ByOwner>();
        const auto it = index.find(owner);
        if (it == index.end()) {
            stop("id");
        }
        return it->balance;
    }

    std::int64_t find_sorted(std::int64_t balance) override {
        const auto it = balances().find(boost::make_tuple(balance));
        return it == balances().end() ? ABSENT : it->id;
    }

    std::int64_t count(std::int64_t balance) override { return static_cast<std::int64_t>(balances().count(boost::make_tuple(balance))); }

    std::int64_t rank(std::int64_t id) override { return static_cast<std::int64_t>(balances().rank(accounts_.project<ByBalance>(found(id)))); }

    std::int64_t nth(std::int64_t n) override {
        const auto it = balances().nth(static_cast<std::size_t>(n));
        if (it == balances().end()) {
            stop("id");
        }
        return it->id;
    }

    std::uint64_t ten_from(std::int64_t balance) override { return copied(from(balance), balances().end(), TEN); }

    std::uint64_t between(std::int64_t lower, std::int64_t upper) override { return copied(from(lower), from(upper), MOST); }

    std::uint64_t ten_below(std::int64_t balance) override {
        return copied(std::make_reverse_iterator(from(balance)), std::make_reverse_iterator(balances().begin()), TEN);
    }

    std::uint64_t ten_behind(std::int64_t id) override {
        return copied(std::next(accounts_.project<Line>(found(id))), accounts_.get<Line>().end(), TEN);
    }

private:
    using Ids = Accounts::index<ById>::type;
    using Balances = Accounts::index<ByBalance>::type;

    Ids &ids() { return accounts_.get<ById>(); }
    const Balances &balances() const { return accounts_.get<ByBalance>(); }

    Balances::const_iterator from(std::int64_t balance) const { return balances().lower_bound(boost::make_tuple(balance)); }

    Ids::iterator found(std::int64_t id) {
        auto it = place_of(accounts_, id);
        if (it == ids().end()) {
            stop("id");
        }
        return it;
    }

    void put(Ids::iterator it, std::int64_t more) {
        std::int64_t balance;
        if (__builtin_add_overflow(it->balance, more, &balance)) {
            stop("range");
        }
        const std::int64_t now = arrivals_++;
        ids().modify(it, [&](Account &account) {
            const bool is_other = account.balance != balance;
            account.balance_at = is_other ? now : account.balance_at;
            account.class_at = is_other ? now : account.class_at;
            account.balance = balance;
        });
    }

    template <class First, class Last>
    std::uint64_t copied(First it, Last end, std::size_t most) {
        page_.clear();
        for (; it != end && page_.count() < most; ++it) {
            page_.next() = *it;
        }
        return page_.sum();
    }

    Accounts accounts_;
    Account old_;
    Page page_;
    std::int64_t next_ = 0, arrivals_ = 0;
};

} // namespace

std::unique_ptr<System> made(const std::string &name, const char *) {
    if (name != "boost") {
        stop("a system: boost");
    }
    return std::make_unique<Boost>();
}

std::string version() { return "Boost " + std::to_string(BOOST_VERSION / 100000) + "." + std::to_string(BOOST_VERSION / 100 % 1000); }
