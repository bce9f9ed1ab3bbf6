#!/bin/sh
# Three members of one ledger, with three members of etcd, on one machine: docs/OPERATING.md, "Replicas". It wants etcd 3.4 (apt-get install etcd-server),
# and mi_service on the PATH. Run it from a checkout; Ctrl-C ends all.
set -u
export PYTHONPATH=clients/python URLS=http://127.0.0.1:23791,http://127.0.0.1:23792,http://127.0.0.1:23793
PEERS=e1=http://127.0.0.1:23801,e2=http://127.0.0.1:23802,e3=http://127.0.0.1:23803
trap 'kill 0' INT TERM
for n in 1 2 3; do
    etcd --name e$n --data-dir ledger/e$n --initial-cluster $PEERS --listen-client-urls http://127.0.0.1:2379$n \
        --advertise-client-urls http://127.0.0.1:2379$n --listen-peer-urls http://127.0.0.1:2380$n \
        --initial-advertise-peer-urls http://127.0.0.1:2380$n --log-level error &
done
for n in 1 2 3; do
    python3 -m mi_replica --etcd $URLS --name shop --program mi_service --listen 800$n --folder ledger/m$n &
done
wait
