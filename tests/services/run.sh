#!/bin/sh
# Runs real services through both ends of the tunnel, and compares what comes with what was sent: nginx, redis, ssh and
# postgres. Each goes three ways: `plain`; `turned`, where `remote` is the end that calls; and `stunnel`, with TLS between
# the two ends.
#
#     tests/services/run.sh [--only nginx|redis|ssh|postgres]
#
# A service or a way whose package is missing is left out with a word. Each service has its folder and its port for
# itself, and ends with the script. Needs Python 3, openssl, and `ss` of iproute2. Ends with 'N passed, M failed'.
set -eu
here=$(cd "$(dirname "$0")" && pwd)
. "$here/../over.sh"

# Where `remote` calls: the option of `remote`, and that of `local`.
turned=${TURNED:---call --await}

case "$#,${1-},${2-}" in
0,,) only= ;;
2,--only,nginx | 2,--only,redis | 2,--only,ssh | 2,--only,postgres) only=$2 ;;
*)
    echo 'usage: tests/services/run.sh [--only nginx|redis|ssh|postgres]' >&2
    exit 2
    ;;
esac
# the servers stand there on Debian
PATH=$PATH:/usr/sbin:/sbin
find_program
# a server may run as another user, whose folder stands in this one
chmod 711 "$scratch"
cd "$scratch"

# ---- what runs

# the processes of the two ends, and of the service
ends=
servers=

# limited COMMAND..: runs it for ten minutes at most. TERM goes on to all that it began, and what is left five seconds
# later is killed. So it ends even where this script was killed.
limited() {
    timeout -k 5 600 "$@"
}

# end PROCESS..: ends them, and waits until they have gone
end() {
    [ $# = 0 ] || kill "$@" 2> /dev/null || true
    [ $# = 0 ] || wait "$@" 2> /dev/null || true
}

# the ends go first, so that no client of a server is left
# shellcheck disable=SC2086
trap 'end $ends; end $servers; rm -rf "$scratch"' EXIT

# start NAME ADDRESS COMMAND..: starts it, with what it says in NAME.said, and waits until it listens at the address:
# `started` is its process
start() {
    name=$1 address=$2
    shift 2
    timeout -k 5 600 "$@" > "$name.said" 2>&1 < /dev/null &
    started=$!
    in_time is_listening "$address"
}

# serve COMMAND..: starts the service at `target`
serve() {
    listens=yes
    start service "$target" "$@" || listens=no
    servers="$servers $started"
    [ $listens = yes ] || bad "$service does not listen at $target" service.said
    [ $listens = yes ]
}

# end_of_tunnel NAME ADDRESS COMMAND..: starts one of the processes between the user and the service
end_of_tunnel() {
    listens=yes
    start "$@" || listens=no
    ends="$ends $started"
    [ $listens = yes ] || bad "$service, $way: $1 does not listen at $2" ./*.said
    [ $listens = yes ]
}

# has COMMAND PACKAGE [WAY]: whether it is here; if not, a word of the service, or of its way, that is left out
has() {
    command -v "$1" > /dev/null || {
        echo "--    $service${3:+, $3}: left out: no $1 (apt-get install $2)"
        return 1
    }
}

# ---- the three ways

# join plain|turned|stunnel: puts the two ends between `near`, where users connect, and `target`
join() {
    way=$1
    free_ports 4 > ports
    { read -r near && read -r peer && read -r inner && read -r outer; } < ports
    rm -f local.said remote.said stunnel*.said
    "join_$way"
}

join_plain() {
    end_of_tunnel remote "127.0.0.1:$peer" "$ymx" remote -v --bind "127.0.0.1:$peer" --target "$target" &&
        end_of_tunnel local "127.0.0.1:$near" "$ymx" local -v --listen "127.0.0.1:$near" --peer "127.0.0.1:$peer"
}

# `local` listens for users once `remote` has called
join_turned() {
    end_of_tunnel local "127.0.0.1:$peer" \
        "$ymx" local -v --listen "127.0.0.1:$near" "${turned#* }" "127.0.0.1:$peer" &&
        end_of_tunnel remote "127.0.0.1:$near" "$ymx" remote -v "${turned% *}" "127.0.0.1:$peer" --target "$target"
}

# the two configurations of docs/TUNNEL.md
join_stunnel() {
    cat > server.conf << END
foreground = yes
pid =
debug = warning
[ymx]
accept = 127.0.0.1:$outer
connect = 127.0.0.1:$peer
cert = $scratch/server.pem
END
    cat > client.conf << END
foreground = yes
pid =
debug = warning
[ymx]
client = yes
accept = 127.0.0.1:$inner
connect = 127.0.0.1:$outer
verifyPeer = yes
CAfile = $scratch/certificate.pem
END
    end_of_tunnel remote "127.0.0.1:$peer" "$ymx" remote -v --bind "127.0.0.1:$peer" --target "$target" &&
        end_of_tunnel stunnel_server "127.0.0.1:$outer" stunnel server.conf &&
        end_of_tunnel stunnel_client "127.0.0.1:$inner" stunnel client.conf &&
        end_of_tunnel local "127.0.0.1:$near" "$ymx" local -v --listen "127.0.0.1:$near" --peer "127.0.0.1:$inner"
}

# make_certificate: a key and its certificate, once
make_certificate() {
    [ -e server.pem ] || {
        openssl req -x509 -newkey rsa:2048 -nodes -days 2 -subj /CN=ymx -keyout key.pem -out certificate.pem 2> /dev/null
        cat key.pem certificate.pem > server.pem
    }
}

# each_way FUNCTION: runs the service's cases each way
each_way() {
    for each in plain turned stunnel; do
        if [ $each = stunnel ]; then
            has stunnel stunnel4 stunnel || continue
            make_certificate
        fi
        if join $each; then
            "$1"
        fi
        # shellcheck disable=SC2086
        end $ends
        ends=
    done
    # shellcheck disable=SC2086
    end $servers
    servers=
}

# says_no_fault: whether both ends have only said where they listen, and how connections ended
says_no_fault() {
    ! grep -hv '^ymx: listening at \|^ymx: connection [0-9]* from [0-9.:]*: [0-9]* bytes ' local.said remote.said
}

# try NAME COMMAND..: a case. The last line of what it says stands in its line.
try() {
    name="$service, $way: $1"
    shift
    began=$(date +%s%3N)
    if "$@" > log 2>&1 && says_no_fault >> log; then
        took=$(($(date +%s%3N) - began))
        good
        echo "ok    $name: $(tail -n 1 log) ($((took / 1000)).$((took % 1000 / 100)) seconds)"
    else
        tail -n 20 log > last
        for each in ./*.said; do
            echo "$each:"
            tail -n 5 "$each"
        done >> last
        bad "$name" last
    fi
}

# ---- nginx

nginx_cases() {
    try '100 requests at once' limited python3 "$here/fetch.py" "127.0.0.1:$near" www 100
    try '100 requests at once, a second time' limited python3 "$here/fetch.py" "127.0.0.1:$near" www 100
}

run_nginx() {
    service=nginx
    has nginx nginx || return 0
    mkdir www
    for size in 0 1 1000 16384 65537 262144 1048577 5000000; do
        head -c $size /dev/urandom > www/$size
    done
    port=$(free_ports 1)
    target=127.0.0.1:$port
    # its workers read this folder, so they stay the user who runs this
    [ "$(id -u)" != 0 ] || user='user root;'
    cat > nginx.conf << END
${user-}
daemon off;
pid $scratch/nginx.pid;
worker_processes 2;
events { worker_connections 1024; }
http {
    access_log off;
    client_body_temp_path $scratch/nginx_1;
    proxy_temp_path $scratch/nginx_2;
    fastcgi_temp_path $scratch/nginx_3;
    uwsgi_temp_path $scratch/nginx_4;
    scgi_temp_path $scratch/nginx_5;
    server { listen $target backlog=1024; root $scratch/www; }
}
END
    serve nginx -p "$scratch" -e "$scratch/nginx.errors" -c "$scratch/nginx.conf" || return 0
    each_way nginx_cases
}

# ---- redis

# pipe: 100,000 commands in one pipeline, as redis-cli sends them
pipe() {
    limited redis-cli -p "$near" --pipe < commands > answer && cat answer && grep -q 'errors: 0, replies: 100000$' answer
}

redis_cases() {
    try '100,000 commands by redis-cli --pipe' pipe
    try '100,000 commands and their answers' limited python3 "$here/redis.py" "127.0.0.1:$near" pipeline 100000
    try 'subscriptions beside pipelines' limited python3 "$here/redis.py" "127.0.0.1:$near" subscribe 1000
}

run_redis() {
    service=redis
    has redis-server redis-server && has redis-cli redis-tools || return 0
    awk 'BEGIN { for (i = 1; i <= 100000; i++) printf "SET key:%d value:%d:%d\r\n", i, i, i * i }' > commands
    port=$(free_ports 1)
    target=127.0.0.1:$port
    serve redis-server --bind 127.0.0.1 --port "$port" --save '' --appendonly no --dir "$scratch" || return 0
    each_way redis_cases
}

# ---- ssh

# copy FROM TO: by scp
copy() {
    limited scp -q -F ssh.conf -P "$near" "$1" "$2"
}

# same FILE: whether it is the big one
same() {
    sha256sum < "$1" > sum && cmp sum big.sum && rm -f "$1" && echo '200 MB, the same checksum'
}

upload() {
    copy big "127.0.0.1:$scratch/up" && same up
}

download() {
    copy "127.0.0.1:$scratch/big" down && same down
}

# both ways at once
both_copies() {
    copy big "127.0.0.1:$scratch/up" &
    uploading=$!
    copy "127.0.0.1:$scratch/big" down && wait $uploading && same up && same down
}

ssh_cases() {
    try 'scp there' upload
    try 'scp back' download
    try 'scp there and back at once' both_copies
}

run_ssh() {
    service=ssh
    has sshd openssh-server && has scp openssh-client || return 0
    head -c 200000000 /dev/urandom > big
    sha256sum < big > big.sum
    ssh-keygen -q -t ed25519 -N '' -f host_key
    ssh-keygen -q -t ed25519 -N '' -f user_key
    port=$(free_ports 1)
    target=127.0.0.1:$port
    # where root runs it, sshd wants this folder of the system's
    [ "$(id -u)" != 0 ] || mkdir -p /run/sshd
    cat > sshd.conf << END
ListenAddress $target
HostKey $scratch/host_key
AuthorizedKeysFile $scratch/user_key.pub
PidFile none
StrictModes no
UsePAM no
PasswordAuthentication no
KbdInteractiveAuthentication no
PermitRootLogin prohibit-password
Subsystem sftp internal-sftp
END
    cat > ssh.conf << END
User $(id -un)
IdentityFile $scratch/user_key
IdentitiesOnly yes
IdentityAgent none
HostKeyAlias ymx
UserKnownHostsFile $scratch/known
GlobalKnownHostsFile /dev/null
StrictHostKeyChecking yes
BatchMode yes
END
    echo "ymx $(cut -d ' ' -f 1,2 host_key.pub)" > known
    serve "$(command -v sshd)" -D -e -f "$scratch/sshd.conf" || return 0
    each_way ssh_cases
    rm -f big
}

# ---- postgres

sql() {
    limited psql -X -q -h 127.0.0.1 -p "$near" -U tester -d postgres -v ON_ERROR_STOP=1 "$@"
}

copy_in() {
    sql -c 'drop table if exists lines' -c 'create table lines (number int, text text)' -c '\copy lines from rows' &&
        sql -At -c 'select count(*) from lines' > answer && echo "$(cat answer) rows, $(wc -c < rows) bytes" &&
        [ "$(cat answer)" = 300000 ]
}

copy_out() {
    sql -c '\copy (select * from lines order by number) to rows_back' && sha256sum < rows > sum &&
        sha256sum < rows_back | cmp - sum && echo 'the same checksum'
}

bench() {
    limited pgbench -q -h 127.0.0.1 -p "$near" -U tester -i -s 1 postgres &&
        limited pgbench -h 127.0.0.1 -p "$near" -U tester -n -c 8 -T 10 postgres &&
        grep -q '^number of failed transactions: 0 ' log
}

postgres_cases() {
    try 'COPY there' copy_in
    try 'COPY back' copy_out
    try 'pgbench, 8 clients' bench
}

run_postgres() {
    service=postgres
    # Debian keeps the server outside the PATH
    for each in /usr/lib/postgresql/*/bin; do
        PATH=$PATH:$each
    done
    has postgres postgresql && has initdb postgresql && has psql postgresql-client && has pgbench postgresql-contrib || return 0
    # it refuses to run as root
    as=
    if [ "$(id -u)" = 0 ]; then
        as='setpriv --reuid=postgres --regid=postgres --clear-groups'
        id postgres > /dev/null 2>&1 || as='setpriv --reuid=nobody --regid=nogroup --clear-groups'
    fi
    mkdir postgres
    [ -z "$as" ] || chown "$($as id -u):$($as id -g)" postgres
    awk 'BEGIN { for (i = 1; i <= 300000; i++) printf "%d\tline %d of many, %d, %s\n", i, i, i * i, "abcdefghijklmnopqrstuvwxyz0123456789" }' > rows
    port=$(free_ports 1)
    target=127.0.0.1:$port
    cd postgres
    # shellcheck disable=SC2086
    limited $as initdb -D "$scratch/postgres/data" -U tester -A trust -E UTF8 --locale=C --no-sync > ../initdb.said 2>&1 || {
        cd ..
        bad 'postgres: initdb' initdb.said
        return 0
    }
    cd ..
    # shellcheck disable=SC2086
    serve $as postgres -D "$scratch/postgres/data" -h 127.0.0.1 -p "$port" -k '' -F || return 0
    each_way postgres_cases
}

for each_service in nginx redis ssh postgres; do
    if [ -z "$only" ] || [ "$only" = $each_service ]; then
        "run_$each_service"
    fi
done
counted
