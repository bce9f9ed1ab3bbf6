// A stand-in for chainbase, which has no package to take it from: of its calls those that chainbase_accounts.cpp makes. The containers are
// Boost's, in memory alone; what a session has changed is kept and put back object by object, as there.
#ifndef CHAINBASE_STAND_IN_HPP
#define CHAINBASE_STAND_IN_HPP

#include <boost/multi_index_container.hpp>
#include <cstdint>
#include <map>
#include <memory>
#include <set>
#include <stdexcept>
#include <string>
#include <typeindex>
#include <utility>
#include <vector>

namespace chainbase {

template <class T> using allocator = std::allocator<T>;
using shared_string = std::string;

template <class T> struct oid {
    std::int64_t _id = 0;

    friend bool operator<(oid one, oid other) { return one._id < other._id; }
};

template <std::uint16_t Number, class T> struct object {
    using id_type = oid<T>;
};

template <class T> struct get_index_type;

#define CHAINBASE_SET_INDEX_TYPE(OBJECT, INDEX)                                                                                             \
    namespace chainbase {                                                                                                                      \
    template <> struct get_index_type<OBJECT> {                                                                                                \
        using type = INDEX;                                                                                                                    \
    };                                                                                                                                         \
    }

struct abstract_index {
    virtual ~abstract_index() = default;
    virtual void start() = 0;
    virtual void undo() = 0;
    virtual void squash() = 0;
};

template <class Index> class generic_index : public abstract_index {
public:
    using value_type = typename Index::value_type;
    using id_type = typename value_type::id_type;

    const Index &indices() const { return indices_; }

    template <class Constructor> const value_type &emplace(Constructor &&fill) {
        const id_type id{next_};
        const auto made = indices_.emplace([&](value_type &it) { it.id = id, fill(it); }, allocator<value_type>());
        if (!made.second)
            throw std::logic_error("could not insert object, most likely a uniqueness constraint was violated");
        next_++;
        if (!sessions_.empty())
            sessions_.back().made.insert(id);
        return *made.first;
    }

    template <class Modifier> void modify(const value_type &object, Modifier &&change) {
        if (!sessions_.empty() && sessions_.back().made.count(object.id) == 0)
            sessions_.back().old.emplace(object.id, object);
        if (!indices_.modify(indices_.iterator_to(object), change))
            throw std::logic_error("could not modify object, most likely a uniqueness constraint was violated");
    }

    void start() override { sessions_.push_back({{}, {}, next_}); }

    void undo() override {
        const Session &newest = sessions_.back();
        for (const auto &kept : newest.old)
            indices_.modify(indices_.find(kept.first), [&](value_type &it) { it = kept.second; });
        for (const id_type id : newest.made)
            indices_.erase(id);
        next_ = newest.next;
        sessions_.pop_back();
    }

    void squash() override {
        const Session newest = std::move(sessions_.back());
        sessions_.pop_back();
        if (sessions_.empty())
            return;
        for (const auto &kept : newest.old)
            if (sessions_.back().made.count(kept.first) == 0)
                sessions_.back().old.insert(kept);
        sessions_.back().made.insert(newest.made.begin(), newest.made.end());
    }

private:
    // What a session has changed: objects as they were before it, and those that it made.
    struct Session {
        std::map<id_type, value_type> old;
        std::set<id_type> made;
        std::int64_t next;
    };

    Index indices_;
    std::int64_t next_ = 0;
    std::vector<Session> sessions_;
};

class database {
public:
    enum open_flags { read_only, read_write };

    database(const std::string &, open_flags, std::uint64_t) {}

    class session {
    public:
        explicit session(database *db) : db_(db) { step(&abstract_index::start); }
        session(session &&other) noexcept : db_(std::exchange(other.db_, nullptr)) {}
        ~session() { undo(); }

        void undo() { end(&abstract_index::undo); }
        void squash() { end(&abstract_index::squash); }
        void push() { db_ = nullptr; }

    private:
        void step(void (abstract_index::*call)()) {
            for (const auto &it : db_->indices_)
                (it.second.get()->*call)();
        }

        void end(void (abstract_index::*call)()) {
            if (db_ != nullptr)
                step(call);
            db_ = nullptr;
        }

        database *db_;
    };

    session start_undo_session(bool is_enabled) { return session(is_enabled ? this : nullptr); }

    template <class Index> void add_index() { indices_[typeid(Index)] = std::make_unique<generic_index<Index>>(); }

    template <class Index> const generic_index<Index> &get_index() const {
        return static_cast<const generic_index<Index> &>(*indices_.at(typeid(Index)));
    }

    template <class T, class Constructor> const T &create(Constructor &&fill) { return of<T>().emplace(std::forward<Constructor>(fill)); }
    template <class T, class Modifier> void modify(const T &object, Modifier &&change) { of<T>().modify(object, std::forward<Modifier>(change)); }

private:
    template <class T> auto &of() {
        using Index = typename get_index_type<T>::type;
        return static_cast<generic_index<Index> &>(*indices_.at(typeid(Index)));
    }

    std::map<std::type_index, std::unique_ptr<abstract_index>> indices_;
};

} // namespace chainbase

#endif
