// Databases and pages that are moved and exchanged, and tables as containers, alone: the library may be stand_in.cpp. It prints `ok`, or the line of what differs.
#include "moves.hpp"
#include "tables.hpp"

int main() {
    moves::all();
    tables::all();
    std::puts("ok");
}
