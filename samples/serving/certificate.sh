# Makes a certificate of one's own for a machine, airdv.pem, and its key, airdv.key:  sh certificate.sh NAME
# NAME is the name by which clients call the machine. It holds for 825 days, and for 127.0.0.1 too.
# Give airdv.pem to those who ask (`curl --cacert airdv.pem`), and airdv.key to nobody.
umask 077
openssl req -x509 -newkey rsa:2048 -nodes -days 825 -subj "/CN=$1" -addext "subjectAltName=DNS:$1,IP:127.0.0.1" \
  -keyout airdv.key -out airdv.pem && chmod 644 airdv.pem
