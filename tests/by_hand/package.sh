#!/usr/bin/env bash
# Installs a Debian package in a clean root, starts its units' programs, upgrades, removes and purges it, and looks for files that are left.
#
# Usage: package.sh PACKAGE      (as root; PACKAGE is what `make deb` made)
#
# The clean root is Debian bookworm (debootstrap, minbase), from the mirror that apt's sources on this machine name. It is in a temporary
# folder, which is deleted at the end. Its mounts, processes and sockets are in namespaces of their own, so any port is free. No service
# manager runs: the script reads a unit's Environment, EnvironmentFile, ExecStart, ExecStartPost, RestartSec and LimitNOFILE, and starts the
# program as a user who owns nothing. It does not try a unit's other settings, such as MemoryMax. It needs debootstrap, unshare and ip. If lintian
# is installed, it looks at the package too.
#
# A line has the result of each check. The last line is 'N passed, M failed'.
set -u
suite=bookworm
namespaces=(unshare --mount --pid --fork --kill-child)

# The mirror of this machine's apt that has the suite.
mirror() {
    awk -v suite="$suite" '
        /^$/ { address = "" }
        /^deb / { sub(/\[[^]]*\] */, ""); if ($3 == suite) print $2 }
        /^URIs:/ { address = $2 }
        /^Suites:/ { for (i = 2; i <= NF; i++) if ($i == suite) print address }
    ' /etc/apt/sources.list /etc/apt/sources.list.d/* 2> /dev/null | head -n 1
}

give_up() {
    echo "package.sh: $*"
    echo '0 passed, 1 failed'
    exit 1
}

# Makes the clean root, and runs the checks in namespaces.
outside() {
    local command needed
    [ "$(id -u)" -eq 0 ] || give_up 'only root can make a clean root'
    for command in debootstrap unshare ip; do
        command -v "$command" > /dev/null || give_up "$command is missing"
    done
    scratch=$(mktemp -d)
    child=
    trap '[ -z "$child" ] || kill "$child" 2> /dev/null; wait; rm -rf --one-file-system "$scratch"' EXIT
    trap 'exit 1' INT TERM
    needed=$(dpkg-deb -f "$package" Depends | sed 's/([^)]*)//g; s/|[^,]*//g; s/ //g')
    attended "${namespaces[@]}" debootstrap --variant=minbase --include="$needed" "$suite" "$scratch/root" "$(mirror)" > "$scratch/log" 2>&1 \
        || give_up "debootstrap failed: $(tail -n 3 "$scratch/log")"
    chmod 755 "$scratch"
    attended "${namespaces[@]}" --net "$0" --inside "$package" "$scratch/root"
}

# Runs a command, and ends it if the script is interrupted.
attended() {
    local status
    "$@" &
    child=$!
    wait "$child"
    status=$?
    child=
    return "$status"
}

in_root() {
    env -i PATH=/usr/sbin:/usr/bin:/sbin:/bin LC_ALL=C DEBIAN_FRONTEND=noninteractive chroot "$root" "$@"
}

# Runs a check, prints what it should see, and counts it.
passed=0
failed=0
check() {
    local what=$1
    shift
    if "$@"; then
        echo "$what"
        passed=$((passed + 1))
    else
        echo "FAILED: $what"
        failed=$((failed + 1))
    fi
}

is_same() {
    [ "$1" = "$2" ] || { printf '  wanted: %q\n  seen:   %q\n' "$1" "$2"; return 1; }
}

# Runs dpkg or apt-get in the root, and prints its output if it fails.
installer() {
    in_root "$@" > "$root/../installer" 2>&1 || { tail -n 5 "$root/../installer"; return 1; }
}

# Runs a command line of a unit in the place of this process, as a user who owns nothing, with what the unit and its file of settings set.
# Words: KEY UNIT INSTANCE, and words beside those of the unit.
run_line() {
    local key=$1 unit=$root/usr/lib/systemd/system/$2 text line
    text=$(sed "s/%i/$3/g" "$unit")
    shift 3
    of_unit() { sed -n "s/^$1=//p" <<< "$text"; }
    eval "export $(of_unit Environment)"
    while IFS= read -r line; do
        export "${line?}"
    done < <(grep -E '^[A-Z]+=' "$root$(of_unit EnvironmentFile | sed 's/^-//')" 2> /dev/null)
    ulimit -n "${descriptors:-$(of_unit LimitNOFILE)}"
    eval "exec ${within:-} chroot --userspec=65534:65534 '$root' $(of_unit "$key") \"\$@\""
}

# Runs the program of a unit in the place of this process. Words: UNIT INSTANCE, and words for the program beside those of the unit.
run_unit() {
    run_line ExecStart "$@"
}

# Starts a unit in the background, as `$!`. Its output goes to files of its port. Words: PORT UNIT INSTANCE.
begin() {
    local port=$1
    shift
    run_unit "$@" > "$root/../said.$port" 2> "$root/../errors.$port" &
    started+=($!)
}

# Whether a unit counts as started, by its ExecStartPost. Words: PROCESS UNIT INSTANCE.
is_started() {
    (
        export MAINPID=$1
        within='timeout 60'
        shift
        run_line ExecStartPost "$@"
    )
}

# Starts a unit, and sees that it counts as started, and says where it listens. Words: PORT UNIT INSTANCE.
starts() {
    begin "$@"
    if is_started $! "${@:2}" && grep -qx "listening 127.0.0.1:$1" "$root/../said.$1"; then
        return 0
    fi
    cat "$root/../said.$1" "$root/../errors.$1"
    return 1
}

# Whether a server at the port of another one reports that, in the journal's form, and ends. Words: PORT UNIT INSTANCE.
says_that_it_is_in_use() {
    local said
    said=$(within='timeout 10' JOURNAL_STREAM=8:1 run_unit "${@:2}" 2>&1)
    is_same "3
mc_serverd: cannot listen
mc_serverd: 127.0.0.1:$1: address in use" "$?
$said"
}

# Whether a unit of a server that has no memory for its table has failed. Words: PORT UNIT INSTANCE.
fails_without_memory() {
    (
        started=()
        ulimit -Sv 1000000
        begin "$@"
        ulimit -Sv unlimited
        ! is_started $! "${@:2}" || return 1
        wait $!
        is_same 4 $? && grep -x 'mc_serverd: out of memory' "$root/../errors.$1" > /dev/null
    )
}

# Whether a server ends by its --memory-exit, if it may take only 8 MB more than at its start and its clients store 1 MB repeatedly.
# Words: PORT UNIT INSTANCE.
ends_without_memory() {
    (
        started=()
        trap end_all EXIT
        trap '' PIPE
        starts "$@" || return 1
        taken=$(sed -n 's/^VmSize:[[:space:]]*\([0-9]*\) kB$/\1/p' "$root/proc/${started[-1]}/status")
        end_all
        ulimit -Sv $((taken + 8000))
        begin "$@"
        process=$!
        ulimit -Sv unlimited
        is_started "$process" "${@:2}" || return 1
        for number in $(seq 600); do
            kill -0 "$process" || break
            timeout 5 bash -c 'printf "set f%d 0 0 1000000\r\n%1000000s\r\nquit\r\n" "$2" "" > "/dev/tcp/127.0.0.1/$1"' - "$1" "$number"
            sleep 0.02
        done 2> /dev/null
        ! kill -0 "$process" 2> /dev/null || return 1
        wait "$process"
        is_same 4 $? && grep -x 'mc_serverd: out of memory for 2 seconds' "$root/../errors.$1" > /dev/null
    )
}

# Whether a unit counts as started though clients have all descriptors of its program, which serves them after that. Words: PORT UNIT INSTANCE.
starts_full() {
    (
        started=()
        trap end_all EXIT
        descriptors=16 begin "$@"
        process=$!
        until grep -qx "listening 127.0.0.1:$1" "$root/../said.$1" || ! kill -0 "$process"; do
            sleep 0.1
        done
        exec {served}<> "/dev/tcp/127.0.0.1/$1" || return 1
        for _ in $(seq 15); do
            exec {client}<> "/dev/tcp/127.0.0.1/$1" || return 1
        done
        is_started "$process" "${@:2}" || return 1
        printf 'version\r\n' >&"$served" && read -r -t 10 line <&"$served" && [[ $line = 'VERSION '* ]]
    )
}

# Ends the programs that were started, and waits for their end.
end_all() {
    [ ${#started[@]} -eq 0 ] || { kill "${started[@]}" 2> /dev/null; wait "${started[@]}" 2> /dev/null; }
    started=()
}

# The answer of a port to these bytes, until the connection ends.
asked() {
    exec 3<> "/dev/tcp/127.0.0.1/$1" || return 1
    printf '%b' "$2" >&3
    timeout 10 cat <&3
    exec 3>&-
}

# Sends bytes to a port, and checks that these are the answer until the connection ends.
answers() {
    is_same "$(printf '%b' "$3")" "$(asked "$1" "$2")"
}

# Whether the answer to these bytes has a line, within ten seconds. Words: PORT BYTES LINE.
shows() {
    for _ in $(seq 100); do
        ! asked "$1" "$2" | tr -d '\r' | grep -qx "$3" || return 0
        sleep 0.1
    done
    asked "$1" "$2"
    return 1
}

# Whether the answer to these bytes has each of these lines. Words: PORT BYTES LINE..
shows_all() {
    local line
    for line in "${@:3}"; do
        shows "$1" "$2" "$line" || return 1
    done
}

# The cas number of an item that is stored now at a port.
new_number() {
    asked "$1" 'set c 0 0 1\r\nx\r\ngets c\r\nquit\r\n' | tr -d '\r' | sed -n 's/^VALUE c 0 1 //p'
}

# Whether the server that was started last, killed and started again after the time that its unit waits, counts cas numbers above those before.
# Words: PORT UNIT INSTANCE.
numbers_rise() {
    local before after
    before=$(new_number "$1")
    { kill -KILL "${started[-1]}" && wait "${started[-1]}"; } 2> /dev/null
    sleep "$(sed -n 's/^RestartSec=//p' "$root/usr/lib/systemd/system/$2")"
    starts "$@" || return 1
    after=$(new_number "$1")
    [ -n "$before" ] && [ "$after" -gt "$before" ] || { echo "  $before before, $after after"; return 1; }
}

# Whether the program at a port has written a line on standard error, within ten seconds. Words: PORT LINE.
says() {
    for _ in $(seq 100); do
        ! grep -qx "$2" "$root/../errors.$1" || return 0
        sleep 0.1
    done
    cat "$root/../errors.$1"
    return 1
}

# Stores twenty keys through the proxy at a port, or gets them: the answers, a line for each kind with its number.
twenty() {
    local text='' number
    for number in $(seq 20); do
        text+="${2//KEY/key-$number}"
    done
    asked "$1" "${text}quit\\r\\n" | tr -d '\r' | sed 's/^VALUE .*/VALUE/' | sort | uniq -c | sed 's/^ *//'
}

all_are_stored() {
    is_same '20 STORED' "$(twenty "$1" 'set KEY 0 0 1\r\nx\r\n')"
}

# Whether the answers are these within ten seconds: a server that is back is used once the proxy has tried it again.
are_stored_again() {
    for _ in $(seq 100); do
        ! all_are_stored "$1" > /dev/null || return 0
        sleep 0.1
    done
    all_are_stored "$1"
}

# Whether some keys hit, and the others belong to a lost server.
some_are_lost() {
    local seen lost
    seen=$(twenty "$1" 'get KEY\r\n')
    lost=$(sed -n 's/ SERVER_ERROR link lost$//p' <<< "$seen")
    is_same "$((20 - lost)) END
$lost SERVER_ERROR link lost
$((20 - lost)) VALUE
$((20 - lost)) x" "$seen" && [ "$lost" -gt 0 ] && [ "$lost" -lt 20 ]
}

# What an operator does with a pool: asks at --admin, adds a server, and loses one and gets it back. The settings are as before after it.
checks_of_a_pool() {
    local proxy=$root/etc/default/mc_proxyd stats='stats\r\nquit\r\n' first
    cp -p "$proxy" "$root/../mc_proxyd"
    echo 'OPTIONS=--budget 100M --items auto --answer 1M --memory-exit 7 --admin 127.0.0.1:9150' > "$root/etc/default/mc_serverd-11221"
    echo 'OPTIONS=--items 16777216' > "$root/etc/default/mc_serverd-11222"
    printf '%s\n' LISTEN=127.0.0.1:11223 'OPTIONS=--admin 127.0.0.1:9151' 'SERVERS=--servers /etc/pool' >> "$proxy"
    echo 127.0.0.1:11221 > "$root/etc/pool"

    check 'a unit whose server has no memory for its table has failed' fails_without_memory 11222 mc_serverd@.service 11222
    check 'a unit whose server has no descriptor left counts as started' starts_full 11221 mc_serverd@.service 11221
    check 'a server starts with --admin' starts 11221 mc_serverd@.service 11221
    first=${started[-1]}
    check 'it answers /healthz' shows 9150 'GET /healthz HTTP/1.0\r\n\r\n' ok
    check 'it answers /metrics' shows 9150 'GET /metrics HTTP/1.0\r\n\r\n' 'memcached_up 1'
    check 'it answers stats' shows 9150 "$stats" 'STAT up 1'
    check 'it answers stats settings, as its file has them' shows_all 9150 'stats settings\r\nquit\r\n' \
        'STAT maxbytes 104857600' 'STAT items 873813' 'STAT answer 1048576' 'STAT memory_exit 7' 'STAT cas_from 0'
    check 'a proxy starts with --admin and a file of servers' starts 11223 mc_proxyd.service ''
    check 'it answers /healthz' shows 9151 'GET /healthz HTTP/1.0\r\n\r\n' ok
    check 'it answers stats, and its server is up' shows 9151 "$stats" 'STAT server:127.0.0.1:11221:up 1'
    check 'a second server starts' starts 11222 mc_serverd@.service 11222
    echo 127.0.0.1:11222 >> "$root/etc/pool"
    check 'a line that is appended to the file joins' says 11223 'mc_proxyd: 127.0.0.1:11222 joined'
    check 'the server that joined is up' shows 9151 "$stats" 'STAT server:127.0.0.1:11222:up 1'
    check 'the pool stores twenty keys' all_are_stored 11223
    { kill -KILL "$first" && wait "$first"; } 2> /dev/null
    check 'a server that is killed is reported lost' says 11223 'mc_proxyd: 127.0.0.1:11221 lost: .*'
    check 'gets of its keys are answered as lost, and those of the other server are right' some_are_lost 11223
    check 'it starts again' starts 11221 mc_serverd@.service 11221
    check 'the pool stores twenty keys again' are_stored_again 11223
    check 'it is reported back' says 11223 'mc_proxyd: 127.0.0.1:11221 back'
    end_all
    cp -p "$root/../mc_proxyd" "$proxy"
    rm "$root/etc/pool" "$root/etc/default/mc_serverd-11221" "$root/etc/default/mc_serverd-11222"
}

# Whether a program at a port of operators lists a client that is connected to another port. Words: PORT OPERATORS.
lists_a_client() {
    exec {client}<> "/dev/tcp/127.0.0.1/$1" || return 1
    shows "$2" 'stats conns\r\nquit\r\n' 'STAT [0-9]*:addr tcp:127\.0\.0\.1:[0-9]*'
    local status=$?
    exec {client}>&-
    return "$status"
}

# What an operator relies on of a server by itself.
checks_of_a_server() {
    local settings=$root/etc/default/mc_serverd-11224
    check 'a server starts without a file of settings' starts 11224 mc_serverd@.service 11224
    check 'a second one at its port says that the address is in use' says_that_it_is_in_use 11224 mc_serverd@.service 11224
    check 'started again, it gives greater cas numbers' numbers_rise 11224 mc_serverd@.service 11224
    end_all
    echo 'OPTIONS=--budget 1G --items auto' > "$settings"
    check 'a budget in letters is taken' \
        settings_reach mc_serverd@.service 11224 'listen 127.0.0.1:11224 budget 1073741824 items 8947848 accept 0'
    echo 'OPTIONS=--budget 1G --items 1000000 --memory-exit 2 --reserve 0' > "$settings"
    check 'a server that is refused memory ends by --memory-exit' ends_without_memory 11224 mc_serverd@.service 11224
    rm "$settings"
}

# What an operator may choose for a proxy: a server's name apart from its address, lost keys that miss, lines for a collector of logs.
checks_of_choices() {
    local proxy=$root/etc/default/mc_proxyd first line='{"time":"[^"]*","program":"mc_proxyd","text":"cache-a:1 TEXT"}'
    cp -p "$proxy" "$root/../mc_proxyd"
    printf '%s\n' LISTEN=127.0.0.1:11223 'OPTIONS=--admin 127.0.0.1:9151 --lost missed --log=json' 'SERVERS=--servers /etc/pool' >> "$proxy"
    echo cache-a:1=127.0.0.1:11221 > "$root/etc/pool"

    check 'a server starts behind a name' starts 11221 mc_serverd@.service 11221
    first=${started[-1]}
    check 'a proxy starts that knows it by its name' starts 11223 mc_proxyd.service ''
    check 'it answers set and get' answers 11223 "$store" "$stored"
    check 'a browser is given a page' shows 9151 'GET / HTTP/1.0\r\n\r\n' '<!doctype html>'
    check 'it says who is connected' lists_a_client 11223 9151
    { kill -KILL "$first" && wait "$first"; } 2> /dev/null
    check 'its server is killed: a line of JSON says so' says 11223 "${line/TEXT/lost: .*}"
    check 'gets of its keys miss' answers 11223 'get a\r\nquit\r\n' 'END\r\n'
    check 'a store is told' answers 11223 'set a 0 0 1\r\nx\r\nquit\r\n' 'SERVER_ERROR link lost\r\n'
    check 'a server starts at another address' starts 11222 mc_serverd@.service 11222
    echo cache-a:1=127.0.0.1:11222 > "$root/etc/pool"
    check 'the name is at that address' says 11223 "${line/TEXT/now at 127.0.0.1:11222}"
    check 'the pool stores twenty keys there' are_stored_again 11223
    end_all
    cp -p "$root/../mc_proxyd" "$proxy"
    rm "$root/etc/pool"
}

# Whether the programs have the version of the package.
versions_are_alike() {
    local program
    for program in mc_serverd mc_proxyd; do
        is_same "$program $version" "$(in_root "$program" --version | cut -d ' ' -f 1,2)" || return 1
    done
}

plays() {
    local seen
    seen=$(printf '%s\n' 'server 1 67108864 1000' 'bytes 0 set a 0 0 1\r\nx\r\nget a\r\n' 'turn 0 100' 'turn 0 100' | in_root mc_sim)
    is_same 'client 0: STORED\r\nVALUE a 0 1\r\nx\r\nEND\r\n' "$seen"
}

settings_reach() {
    is_same "$3" "$(run_unit "$1" "$2" --check 2>&1)"
}

files() {
    find "$root" -xdev | sed "s|^$root||" | sort
}

linted() {
    lintian --fail-on error,warning "$package" > "$root/../linted" 2>&1 || { tail -n 20 "$root/../linted"; return 1; }
}

# Whether these paths exist, or do not.
are_there() {
    local path
    for path in "$@"; do
        [ -e "$root$path" ] || { echo "  $path is missing"; return 1; }
    done
}

are_gone() {
    local path
    for path in "$@"; do
        if [ -e "$root$path" ] || [ -L "$root$path" ]; then
            echo "  $path is left"
            return 1
        fi
    done
}

has_status() {
    is_same "$1" "$(in_root dpkg-query -W -f '${Version} ${db:Status-Status}' wiersbol 2>&1)"
}

verifies() {
    is_same "$1" "$(in_root dpkg --verify wiersbol)"
}

# Whether no path is left in the root except those from before and these.
is_all_that_is_left() {
    is_same "$(printf '%s\n' "$@")" "$(files | comm -13 "$root/../before" -)"
}

# A package of a higher version, with another settings file of the proxy.
newer_package() {
    local folder=$root/../newer
    dpkg-deb -R "$package" "$folder"
    sed -i "s/^Version: .*/Version: $newer/" "$folder/DEBIAN/control"
    echo '# newer' >> "$folder/etc/default/mc_proxyd"
    dpkg-deb --root-owner-group -b "$folder" "$root/root/newer.deb" > /dev/null
}

inside() {
    local version newer started=() running
    local programs=(/usr/bin/mc_serverd /usr/bin/mc_proxyd /usr/bin/mc_sim)
    local settings=(/etc/default/mc_serverd-11211 /etc/default/mc_proxyd)
    local units=(/usr/lib/systemd/system/mc_serverd@.service /usr/lib/systemd/system/mc_proxyd.service)
    local pages=(/usr/share/man/man1/mc_serverd.1.gz /usr/share/man/man1/mc_proxyd.1.gz /usr/share/man/man1/mc_sim.1.gz)
    local script=/usr/lib/wiersbol/serving.sh
    local links=/etc/systemd/system/multi-user.target.wants
    local store='set a 0 0 1\r\nx\r\nget a\r\nquit\r\n' stored='STORED\r\nVALUE a 0 1\r\nx\r\nEND\r\n'
    version=$(dpkg-deb -f "$package" Version)
    newer=$version+1
    ip link set lo up
    mount -t proc proc "$root/proc"
    cp "$package" "$root/root/package.deb"
    newer_package
    mkdir -p "$root$links"
    files > "$root/../before"

    if command -v lintian > /dev/null; then
        check 'lintian names no error' linted
    else
        echo 'lintian is not installed: it did not look at the package'
    fi
    check 'dpkg installs it' installer dpkg -i /root/package.deb
    check "version $version is installed" has_status "$version installed"
    check 'each file has its sum' verifies ''
    check 'programs, units, settings and manual pages are there' are_there "${programs[@]}" "${units[@]}" "${settings[@]}" "${pages[@]}" "$script"
    check 'the unit mc_serverd@11211 starts a server' starts 11211 mc_serverd@.service 11211
    check 'the server answers set and get' answers 11211 "$store" "$stored"
    check 'the unit mc_proxyd starts a proxy' starts 11212 mc_proxyd.service ''
    check 'the proxy answers set and get' answers 11212 "${store//set a/set b}" "$stored"
    check 'the proxy finds what the server stored' answers 11212 'get a\r\nquit\r\n' 'VALUE a 0 1\r\nx\r\nEND\r\n'
    check 'mc_sim plays a script' plays
    check 'the programs have the version of the package' versions_are_alike
    running=("${started[@]}")
    started=()
    checks_of_a_pool
    checks_of_choices
    checks_of_a_server
    started=("${running[@]}")

    echo 'OPTIONS=--budget 2000000 --items 1000' >> "$root${settings[0]}"
    check 'the settings file of a server reaches it' \
        settings_reach mc_serverd@.service 11211 'listen 127.0.0.1:11211 budget 2000000 items 1000 accept 0'
    cp "$root${settings[0]}" "$root/etc/default/mc_serverd-11213"
    check 'a copy of it reaches the server at another port' \
        settings_reach mc_serverd@.service 11213 'listen 127.0.0.1:11213 budget 2000000 items 1000 accept 0'
    echo 'SERVERS=127.0.0.1:11211 127.0.0.1:11213' >> "$root${settings[1]}"
    check 'the settings file of a proxy reaches it' settings_reach mc_proxyd.service '' 'servers 2 points 320'
    printf '%s\n' 127.0.0.1:11211 '# and two more' 127.0.0.1:11213 127.0.0.1:11214 > "$root/etc/servers"
    echo 'SERVERS=--servers /etc/servers' >> "$root${settings[1]}"
    check 'a file of servers reaches it too' settings_reach mc_proxyd.service '' 'servers 3 points 480'
    rm "$root/etc/servers"
    sed -i '$d' "$root${settings[1]}"
    sed -i '$d' "$root${settings[1]}"

    check 'dpkg upgrades it' installer dpkg -i /root/newer.deb
    check "version $newer is installed" has_status "$newer installed"
    check 'the running server goes on, with its items' answers 11211 'get a\r\nquit\r\n' 'VALUE a 0 1\r\nx\r\nEND\r\n'
    check 'the settings that were changed by hand stay' grep -q 'items 1000' "$root${settings[0]}"
    check 'the settings that were not are the newer ones' grep -qx '# newer' "$root${settings[1]}"
    end_all
    check 'the upgraded server starts' starts 11211 mc_serverd@.service 11211
    check 'the upgraded server answers set and get' answers 11211 "$store" "$stored"
    end_all

    ln -s "${units[0]}" "$root$links/mc_serverd@11211.service"
    ln -s "${units[1]}" "$root$links/mc_proxyd.service"
    check 'dpkg removes it' installer dpkg -r wiersbol
    check 'programs, units and manual pages are gone' are_gone "${programs[@]}" "${units[@]}" "${pages[@]}" "${script%/*}" /usr/share/doc/wiersbol
    check 'settings stay' are_there "${settings[@]}"
    check 'dpkg purges it' installer dpkg -P wiersbol
    check 'nothing is left but the settings of another port' is_all_that_is_left /etc/default/mc_serverd-11213
    check 'apt installs the file too' installer apt-get install -y -o Dpkg::Use-Pty=0 /root/package.deb
    check "version $version is installed again" has_status "$version installed"
    echo "$passed passed, $failed failed"
    [ "$failed" -eq 0 ]
}

if [ $# -eq 3 ] && [ "$1" = --inside ]; then
    package=$2
    root=$3
    inside
elif [ $# -eq 1 ] && [ -f "$1" ]; then
    package=$(realpath "$1")
    outside
else
    sed -n '/^# Usage/s/^# //p' "$0"
    exit 2
fi
