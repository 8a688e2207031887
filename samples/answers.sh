# Functions of the samples' scripts that launch an application and ask what it answers over HTTP.

# A port of this machine where nobody answers.
free_port() {
    local port
    for _ in $(seq 100); do
        port=$((20000 + RANDOM % 20000))
        if ! (exec 3<> "/dev/tcp/127.0.0.1/$port") 2> /dev/null; then
            echo "$port"
            return
        fi
    done
    return 1
}

# got PORT: what is answered there within twenty seconds, without its head.
got() {
    local line
    for _ in $(seq 200); do
        if { exec 3<> "/dev/tcp/127.0.0.1/$1"; } 2> /dev/null; then
            printf 'GET / HTTP/1.0\r\nHost: localhost\r\n\r\n' >&3
            while IFS= read -r -t 10 line <&3 && [ "$line" != $'\r' ]; do :; done
            timeout 10 cat <&3 || true
            exec 3>&-
            return
        fi
        sleep 0.1
    done
    echo "nothing answers on port $1"
}

# answers NAME EXPECTED COMMAND..: the command, launched with a free port in PORT, answers with this line. It and what
# it started are ended by their process group.
answers() {
    local port launched
    port=$(free_port)
    set -m
    PORT=$port "${@:3}" > "$room/printed" 2> "$room/said" < /dev/null &
    launched=$!
    set +m
    same "$1" "$(got "$port")" "$2"
    kill -- "-$launched" 2> /dev/null || true
    wait "$launched" 2> /dev/null || true
}
