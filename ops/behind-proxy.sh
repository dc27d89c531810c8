# For check-proxy and check-content, which read this file: a store and, before it, nginx with the configuration of this
# folder. Both run on this machine, in a temporary folder that goes when the script ends.
# KILNLIME is the program (default bin/kilnlime), PORT the first port that is looked at (default: at random).
ops=$(CDPATH= cd "$(dirname "$(readlink -f "${BASH_SOURCE[0]}")")" && pwd) || exit 2
kilnlime=$(readlink -f "${KILNLIME:-$ops/../bin/kilnlime}")
# the admin's token, as in the examples of nginx.conf
admin=adminadmin
failed=0
serving=
folder=$(mktemp -d) || exit 2

# stop_nginx NAME: ends the nginx that notes its process under this name (default nginx)
stop_nginx() {
  local noted="$folder/${1-nginx}.pid" process
  [ -s "$noted" ] || return 0
  process=$(cat "$noted")
  kill "$process" 2>/dev/null
  while kill -0 "$process" 2>/dev/null; do sleep 0.05; done
}

# stop_serving: ends the store, also one that was stopped by a signal, and what starts it again
stop_serving() {
  [ -z "$serving" ] || { kill "$serving" && kill -CONT "$serving"; wait "$serving"; } 2>/dev/null
  serving=
}

cleanup() {
  stop_serving
  stop_nginx
  stop_nginx taker
  rm -rf "$folder"
}
trap cleanup EXIT
trap 'exit 130' INT
trap 'exit 143' TERM HUP

# give_up WHY: ends with the status 2, as nothing can be checked
give_up() {
  echo "${0##*/}: $1" >&2
  exit 2
}

# need PROGRAMS..: gives up if one isn't there
need() {
  local program
  for program in "$kilnlime" "$@"; do
    command -v "$program" >/dev/null || give_up "$program is missing"
  done
}

# expect WHAT WANTED GOT: says whether they are the same
expect() {
  if [ "$2" = "$3" ]; then
    echo "$1: as it should be"
  else
    printf '%s: expected\n%s\nbut it is\n%s\n' "$1" "$2" "$3"
    failed=1
  fi
}

# free NAME: sets NAME to a port on which nothing listens
port=${PORT:-$((20000 + RANDOM % 20000))}
free() {
  port=$((port + 1))
  while (exec 3<>"/dev/tcp/127.0.0.1/$port") 2>/dev/null; do port=$((port + 1)); done
  printf -v "$1" %s "$port"
}

# before_the_store: a store that serves at $direct, without its server, and a certificate for nginx at $base
before_the_store() {
  free store
  free proxy
  direct="http://127.0.0.1:$store/"
  base="https://127.0.0.1:$proxy/"
  "$kilnlime" init "$folder/store" --admin "$admin" --base "$base" </dev/null >"$folder/founded" ||
    give_up "no store: $(cat "$folder/founded")"
  openssl req -x509 -newkey rsa:2048 -nodes -days 2 -subj /CN=127.0.0.1 -addext subjectAltName=IP:127.0.0.1 \
    -keyout "$folder/key.pem" -out "$folder/certificate.pem" 2>/dev/null || give_up 'openssl made no certificate'
}

# configure ORIGIN WORDS..: the two files of this folder, with the values of this check in place of those that the first
# lines of nginx.conf name. The words are further ones of sed, for both files.
configure() {
  local origin=$1
  shift
  sed -e "s|127\.0\.0\.1:8080|127.0.0.1:$store|" -e "s|listen 443 ssl|listen 127.0.0.1:$proxy ssl|" \
    -e "s|/etc/ssl/certs/lrs.example.pem|\"$folder/certificate.pem\"|" \
    -e "s|/etc/ssl/private/lrs.example.key|\"$folder/key.pem\"|" \
    -e "s|/var/log/nginx/\([a-z-]*\.log\)|\"$folder/\1\"|" -e "s|https://course.example|$origin|" "$@" \
    "$ops/nginx.conf" >"$folder/kilnlime.conf"
  sed -e '' "$@" "$ops/kilnlime-proxy.conf" >"$folder/kilnlime-proxy.conf"
}

# start_nginx FURTHER: nginx with these files, and with this text inside `http`
start_nginx() {
  mkdir -p "$folder/bodies"
  {
    [ "$(id -u)" != 0 ] || echo 'user root;'
    cat <<CONF
pid "$folder/nginx.pid";
error_log "$folder/nginx-error.log";
events {}
http {
    access_log off;
    client_body_temp_path "$folder/bodies";
    proxy_temp_path "$folder/bodies";
    fastcgi_temp_path "$folder/bodies";
    uwsgi_temp_path "$folder/bodies";
    scgi_temp_path "$folder/bodies";
    include "$folder/kilnlime.conf";
    ${1-}
}
CONF
  } >"$folder/nginx.conf"
  nginx -p "$folder" -c "$folder/nginx.conf" 2>"$folder/nginx-says" || give_up "nginx: $(cat "$folder/nginx-says")"
}

# stamped: each line that is read, after the time
stamped() {
  local line
  while IFS= read -r line; do echo "$EPOCHREALTIME $line"; done
}

# serve WORKERS CONNECTIONS: one run of the store, always by &; what it says goes to two files
serve() {
  exec "$kilnlime" serve "$folder/store" "127.0.0.1:$store" --workers "$1" --connections "$2" \
    </dev/null >>"$folder/served" 2> >(stamped >>"$folder/told")
}

# listens: waits until the store does, without using a connection
listens() {
  local tries=0
  until tail -n 1 "$folder/told" | grep -q 'listening on'; do
    tries=$((tries + 1))
    [ "$tries" -lt 600 ] || give_up "the store doesn't listen: $(tail -n 3 "$folder/told")"
    sleep 0.05
  done
}

# serve_once WORKERS CONNECTIONS: one run of the store
serve_once() {
  : >"$folder/told"
  serve "$@" &
  serving=$!
  listens
}

# keep_serving WORKERS CONNECTIONS: starts the store again 200 ms after each end, as ops/kilnlime.service does
keep_serving() {
  : >"$folder/told"
  (
    trap 'kill "$process" 2>/dev/null; wait "$process"; exit' TERM
    while :; do
      serve "$@" &
      process=$!
      wait "$process"
      echo "$EPOCHREALTIME ended" >>"$folder/told"
      sleep 0.2
    done
  ) 2>/dev/null &
  serving=$!
  listens
}
