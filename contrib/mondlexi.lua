-- Answers a client that haproxy.cfg refuses, and closes: no tenant has this name, for this client.
-- Without it the connection would end as that to a full server does, and the client would ask on. Used by: haproxy.cfg, which loads it and
-- names its service; scripts/check-proxy and scripts/check-map. ERR 5 is the reply of docs/PROTOCOL.md to an unknown tenant.
core.register_service("mondlexi_refused", "tcp", function(applet)
    applet:send("ERR 5\n")
end)
