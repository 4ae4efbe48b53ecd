# Makes ringd@.service of ringd.service: a ring for each tenant NAME, with settings, words and a folder of its own.
/^# RINGD_WORDS/c\
# A ring for each tenant NAME: /etc/ringd/NAME.toml and RINGD_WORDS in /etc/default/ringd-NAME, with ports of its own.
s|^Description=.*|& of %i|
s|ringd ringd/state|ringd-%i ringd-%i/state|
s|/var/lib/ringd|&-%i|
s|/etc/ringd.toml|/etc/ringd/%i.toml|
s|EnvironmentFile=-/etc/default/ringd|EnvironmentFile=/etc/default/ringd-%i|
/^Environment="RINGD_WORDS/d
