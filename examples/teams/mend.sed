# what `dfsolve check` advises for the Dockerfiles of these folders, by the codes of their faults
# R07: no platform of an image, and of COPY neither parents nor what is left out
s/ --platform=[^ ]*//
s/ --parents//
s/ --exclude=[^ ]*//
# R17: no secrets, and no keys of ssh
/--mount=type=secret/d
/--mount=type=ssh/d
# R16: owners by number
s/--chown=[a-z]*:[a-z]*/--chown=1000:1000/
# R04: what is on a network is fetched by a RUN, and no HEALTHCHECK
s/^ADD .*\(https:[^ ]*\) \(.*\)/RUN wget -q -O \2 \1/
/^HEALTHCHECK/d
# R08: nothing beside a heredoc
s/^RUN <<EOF .*/RUN <<EOF/
