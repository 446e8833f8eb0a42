# Performs its words as a user whom permissions bind: root gives up what lets it pass them.
if [ "$(id -u)" = 0 ]; then
    exec setpriv --bounding-set=-dac_override,-dac_read_search --inh-caps=-dac_override,-dac_read_search "$@"
fi
exec "$@"
