(ns jepsen.client
  "The methods of Jepsen's protocol for clients, for trying jeprun.clj where Jepsen is not at hand.")

(defprotocol Client
  (open! [client test node])
  (setup! [client test])
  (invoke! [client test operation])
  (teardown! [client test])
  (close! [client test]))
