#!/usr/bin/env bash
# Makes the recordings of examples/recorded/ anew, with their reports.
#
# Debian's packages for it: weston (the compositor with its headless and its wayland backend, and its clients), sway,
# foot, gtk-3-examples, gsettings-desktop-schemas, fonts-dejavu-core, python3. It takes about a minute. It starts its
# own compositors in a folder of its own, ends them by their process ids, and leaves nothing else behind. It runs as a
# plain user, since sway doesn't run as root.
set -u
root=$(cd "$(dirname "$(readlink -f "${BASH_SOURCE[0]}")")/.." && pwd) || exit 1
recorded=$root/examples/recorded
most_bytes=300000
patience=60
compositors=()

fail() {
    echo "record-examples.sh: $*" >&2
    exit 1
}

clean_up() {
    for pid in "${compositors[@]}"; do
        kill "$pid" 2>/dev/null && wait "$pid" 2>/dev/null
    done
    [ -z "${hands_pid:-}" ] || kill "$hands_pid" 2>/dev/null
    rm -rf "$work"
}

# Text without grey edges, windows without shadows, gradients and pictures: each word that changes is a line.
write_settings() {
    mkdir -p "$work"/{run,home/.config/{fontconfig,gtk-3.0,glib-2.0/settings}} && chmod 700 "$work/run" || exit 1
    cat >"$work/home/.config/fontconfig/fonts.conf" <<'XML'
<?xml version="1.0"?>
<!DOCTYPE fontconfig SYSTEM "fonts.dtd">
<fontconfig>
<match target="font"><edit name="antialias" mode="assign"><bool>false</bool></edit></match>
</fontconfig>
XML
    cat >"$work/home/.config/gtk-3.0/gtk.css" <<'CSS'
* { box-shadow: none; text-shadow: none; background-image: none; border-radius: 0; }
image { -gtk-icon-transform: scale(0); }
CSS
    cat >"$work/home/.config/glib-2.0/settings/keyfile" <<'KEYS'
[org/gnome/desktop/interface]
font-antialiasing='none'
font-name='DejaVu Sans 8'
gtk-theme='HighContrast'
enable-animations=false
cursor-blink=false
KEYS
    cat >"$work/home/foot.ini" <<'INI'
font=DejaVu Sans Mono:size=8:antialias=false
locked-title=yes
pad=2x2
[csd]
preferred=none
[tweak]
max-shm-pool-size-mb=2
INI
    cat >"$work/weston.ini" <<'INI'
[core]
idle-time=0
[shell]
panel-position=top
clock-format=none
background-color=0xff202020
locking=false
animation=none
startup-animation=none
close-animation=none
focus-animation=none
INI
    cat >"$work/sway.config" <<'CONFIG'
xwayland disable
default_border none
default_floating_border none
for_window [app_id="gtk3-demo-application"] floating enable
CONFIG
}

# become DISPLAY COMMAND..: this process becomes a command in the folder's own environment.
become() {
    exec env -i -C "$work/home" PATH="$PATH" LANG=C.UTF-8 HOME="$work/home" XDG_RUNTIME_DIR="$work/run" \
        WAYLAND_DISPLAY="$1" SWAYSOCK="$work/run/sway" GSETTINGS_BACKEND=keyfile NO_AT_BRIDGE=1 \
        PYTHONDONTWRITEBYTECODE=1 WLR_BACKENDS=headless WLR_RENDERER=pixman WLR_LIBINPUT_NO_DEVICES=1 "${@:2}"
}

# inside DISPLAY COMMAND..: runs a command there.
inside() {
    (become "$@")
}

# start_compositor SOCKET DISPLAY COMMAND..: starts a compositor and waits until it listens.
start_compositor() {
    local socket=$work/run/$1
    become "$2" "${@:3}" >>"$work/log" 2>&1 &
    compositors=($! "${compositors[@]}")
    for _ in {1..100}; do
        [ -S "$socket" ] && return
        sleep 0.1
    done
    fail "$3 doesn't listen: $(tail -n 3 "$work/log")"
}

# screen WIDTH HEIGHT: the size of sway's screen.
screen() {
    size=("$1" "$2")
    inside "$sway" swaymsg -q output HEADLESS-1 mode "$1x$2@60Hz" || fail "sway has no such screen"
}

# hands WORD..: uses keyboard and pointer, beside the next recording. The devices are there before the client is.
hands() {
    become "$sway" timeout "$patience" python3 "$root/scripts/recorder/hands.py" screen "${size[@]}" "$@" \
        >>"$work/log" 2>&1 &
    hands_pid=$!
    sleep 1
}

# record NAME MESSAGE DISPLAY SECONDS WORD..: records a client and works out the report of its replay. A recording
# without the message came to nothing: the client wasn't there yet, or the machine was too slow.
record() {
    local name=$1 out=$work/$1.script
    inside "$3" timeout "$patience" python3 "$root/scripts/record.py" --out "$out" --seconds "$4" "${@:5}" \
        >>"$work/log" 2>&1 || fail "$name isn't recorded: $(tail -n 3 "$work/log")"
    [ -z "${hands_pid:-}" ] || wait "$hands_pid" || fail "the hands for $name: $(tail -n 3 "$work/log")"
    hands_pid=
    grep -q "\.$2(" "$out" || fail "$name has no message $2"
    keep "$name"
}

# cut_up NAME SEED: the recording once more, with breaks.
cut_up() {
    python3 "$root/scripts/chop.py" --seed "$2" --breaks 4 "$work/$1.script" >"$work/$1-cut.script" || exit 1
    keep "$1-cut"
}

keep() {
    local bytes
    bytes=$(stat -c %s "$work/$1.script")
    ! grep -q "wl_display@1.error" "$work/$1.script" || fail "$1 ends with an error of the protocol"
    [ "$bytes" -le "$most_bytes" ] || fail "$1 has $bytes bytes, more than $most_bytes"
    python3 "$root/scripts/expect.py" "$work/$1.script" >"$work/$1.report" || exit 1
    echo "$1: $bytes bytes, $(sed -n 's/^# messages: //p' "$work/$1.script")"
}

[ "$(id -u)" != 0 ] || fail "sway doesn't run as root"
for command in weston sway swaymsg foot gtk3-demo-application python3; do
    command -v "$command" >/dev/null || fail "there is no $command; the packages stand at the head of this script"
done
export PYTHONDONTWRITEBYTECODE=1
work=$(mktemp -d) || exit 1
trap clean_up EXIT
write_settings

start_compositor headless none weston --backend=headless-backend.so --width=320 --height=280 --no-config \
    --socket=headless
record info geometry headless 5 weston-info
record simple-shm done headless 1 --most-fills 200 weston-simple-shm

sway=wayland-1
start_compositor "$sway" none sway --config "$work/sway.config"
screen 320 200
hands wait 2.5 type "echo words" enter wait 0.3 type "seq 9" enter wait 0.5
record foot key "$sway" 5 foot --config=foot.ini /bin/sh
hands move 310 190 wait 2.5 move 90 48 wait 0.3 press release wait 1
record gtk get_popup "$sway" 5 gtk3-demo-application
screen 440 440
hands move 430 430 wait 2.5 move 54 155 wait 0.3 press glide 70 170 glide 330 330 wait 0.3 release wait 1
record drag receive "$sway" 7 --most-fills 400 weston-dnd

screen 440 400
start_compositor nested "$sway" weston --backend=wayland-backend.so --use-pixman --width=260 --height=232 \
    --config="$work/weston.ini" --socket=nested
hands move 220 160 press release wait 2.5 type "echo words" enter wait 0.3 f11 wait 0.5 type "seq 4" enter wait 0.5 \
    f11 wait 0.5
record terminal key nested 7 weston-terminal --maximized --font-size=8 --shell=/bin/sh

cut_up terminal 1
cut_up drag 3
mkdir -p "$recorded" && cp "$work"/*.script "$work"/*.report "$recorded/" || exit 1
