-- A server of XMPP to try `robelava serve` with: on loopback, without TLS, and with two domains: one whose users have passwords, and
-- one that lets anybody in. Run it in this folder: mkdir -p data; prosody --config prosody.cfg.lua -F
-- Keep its port from strangers: whoever reaches it speaks to it in the clear.
run_as_root = true
pidfile = "prosody.pid"
data_path = "data"
log = { info = "*console" }

interfaces = { "127.0.0.1" }
c2s_ports = { 5222 }
modules_enabled = { "roster", "saslauth", "disco", "ping" }
modules_disabled = { "s2s", "tls" }

-- The stream between the manager and this server has no TLS, and needs none on one machine. A proxy before the manager has it.
c2s_require_encryption = false
allow_unencrypted_plain_auth = true

VirtualHost "localhost"
    authentication = "internal_plain"

VirtualHost "anonymous.localhost"
    authentication = "anonymous"
