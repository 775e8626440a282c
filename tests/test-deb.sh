#!/usr/bin/env bash
# The Debian package: what is in it, what lintian says, and that it is installed and removed, in a root of its own,
# with its logs kept; and the README's commands that make and install it.
. "$(dirname "$0")/expect.sh"

for tool in dpkg-deb dpkg strip objdump; do
    command -v $tool > /dev/null || {
        echo "there is no $tool: no package is made"
        exit 0
    }
done
new_folder
chmod 755 "$folder"
expect 0 "~*" "" deploy/build-deb.sh "$folder"
package=$(echo "$folder"/*.deb)
[[ $(dpkg-deb --field "$package" Package Version) == $'Package: journal-collect\nVersion: 0.1.0' ]] ||
    differs "its name and version"
listed=$(dpkg-deb --contents "$package")
for path in usr/bin/journal-collect usr/bin/journal-collect-{admin,forward,join,page,search,send,service,status} \
    usr/lib/journal-collect/journalcollect/{common,collector,machine,reading,forward,setup,status,admin}/__init__.py \
    usr/lib/journal-collect/programs/fit-stream usr/lib/journal-collect/{sshd,slice}.conf \
    usr/lib/journal-collect/journalcollect/forward/clickhouse.sql \
    usr/lib/systemd/system/journal-collect{,-alarm,-forward,-page,-send,-status}.service \
    usr/lib/systemd/system/journal-collect-page.socket usr/lib/systemd/system/journal-collect-status.timer \
    usr/lib/sysusers.d/journal-collect.conf usr/lib/systemd/journald.conf.d/journal-collect.conf \
    usr/share/man/man1/journal-collect.1.gz usr/share/man/man8/journal-collect-{admin,join,send,service}.8.gz \
    usr/share/man/man5/journal-collect-{collector,forward,machine}.conf.5.gz \
    usr/share/bash-completion/completions/journal-collect-search usr/share/zsh/vendor-completions/_journal-collect \
    usr/share/doc/journal-collect/{README,GUIDE,FORMATS,FORWARDING,PERFORMANCE}.md.gz \
    usr/share/doc/journal-collect/examples/{alerts.yml,alarms.swatch,collector.conf,machine.conf,forward.conf} \
    usr/share/doc/journal-collect/copyright etc/journal-collect/{collector,forward,machine}.conf.d; do
    [[ $listed == *" ./$path"* ]] || differs "the package lacks $path"
done
[[ $listed != *$(pwd)* ]] || differs "the package has a path of the build"

if command -v lintian > "$folder/told"; then
    expect 0 "~*" "~*" lintian --fail-on error "$package"
else
    echo "skipped: lintian isn't installed, so the package isn't judged"
fi

# installed, purged and installed again by dpkg, in a root of its own; what was collected stays
if [[ $(id -u) -eq 0 ]] && command -v systemd-sysusers > "$folder/told"; then
    root=$folder/root
    mkdir -p "$root/var/lib/dpkg"/{info,updates,triggers} "$root/var/lib/journal-collect" "$root/etc"
    touch "$root/var/lib/dpkg/status" "$root/var/lib/journal-collect/kept"
    own_dpkg() { dpkg --root="$root" --force-depends --force-script-chrootless --log=/dev/null "$@"; }
    expect 0 "~*" "~*" own_dpkg --install "$package"
    expect 0 "journal-collect 0.1.0" "" "$root/usr/bin/journal-collect" --version
    grep -q "^journal-collect-login:.*:/bin/sh$" "$root/etc/passwd" || differs "the user isn't made"
    # what setup and join make; a removal keeps it, and a purge doesn't
    etc=$root/etc/journal-collect
    set_up() {
        mkdir -p "$etc/keys" "$root/etc/systemd/system/multi-user.target.wants" "$root/etc/ssh/sshd_config.d"
        touch "$etc"/{key,key.pub,known_hosts,authorized_keys} "$etc/keys/web.pub" \
            "$root/etc/ssh/sshd_config.d/journal-collect.conf"
        echo "COLLECTOR=here" > "$etc/machine.conf.d/10-join.conf"
        ln -sf /usr/lib/systemd/system/journal-collect-send.service "$root/etc/systemd/system/multi-user.target.wants/"
    }
    left() {
        (cd "$root" && find usr etc/journal-collect etc/ssh etc/systemd var/lib/journal-* -not -type d 2> /dev/null)
    }
    has_user() { grep -q "^journal-collect:" "$root/etc/passwd"; }
    set_up
    expect 0 "~*" "~*" own_dpkg --remove journal-collect
    grep -q "^COLLECTOR=here$" "$etc/machine.conf.d/10-join.conf" || differs "the settings aren't kept"
    [[ $(left | wc -l) -eq 9 ]] || differs "left by a removal: $(left)"
    expect 0 "~*" "~*" own_dpkg --install "$package"
    expect 0 "~*" "~*the logs below /var/lib/journal-collect are kept, and so are their users*" \
        own_dpkg --purge journal-collect
    [[ $(left) == var/lib/journal-collect/kept ]] || differs "left by a purge: $(left)"
    has_user || differs "the user that has logs is gone"
    # without logs nothing is left
    rm "$root/var/lib/journal-collect/kept"
    expect 0 "~*" "~*" own_dpkg --install "$package"
    set_up
    expect 0 "~*" "~*" own_dpkg --purge journal-collect
    [[ -z $(left) ]] || differs "left by a purge without logs: $(left)"
    ! has_user || differs "the user is left"
else
    echo "there is no systemd-sysusers, or no right to use it: the package isn't installed"
fi

# the README's commands, with stand-ins for the other machine
mkdir -p "$folder/stand-in" "$folder/web"
stand_in() {
    cat > "$folder/stand-in/$1"
    chmod 755 "$folder/stand-in/$1"
}
stand_in make << END
#!/bin/sh
[ "\$*" = deb ] && PATH="$PATH" exec "$PWD/deploy/build-deb.sh" build > "$folder/built"
END
stand_in scp << END
#!/bin/sh
[ "\$2" = web: ] && cp "\$1" "$folder/web"
END
stand_in apt << END
#!/bin/sh
[ "\$1" = install ] && cd "$folder/web" && dpkg-deb --field "\$2" Package
END
commands=$(sed -n '/^make deb /,/^```$/p' README.md | sed '$d')
expect 0 "journal-collect" "" env -C "$folder" PATH="$folder/stand-in:$PATH" bash -ec "$commands"
finish
