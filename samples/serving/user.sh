# Adds a user to the file airdv-users:  sh user.sh NAME
# The password is asked for, or read from the standard input if that is no terminal.
# nginx reads the file by its own user: chgrp www-data airdv-users (Debian).
umask 027
if [ -t 0 ]; then from=; else from=-stdin; fi
password=$(openssl passwd -6 $from) && echo "$1:$password" >> airdv-users
