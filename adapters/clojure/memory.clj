(ns memory
  "A client of Jepsen for a set that an atom holds. README.md has the command that runs it."
  (:require [clojure.java.io :as io]
            [jepsen.client :as client]
            [jeprun]))

(defrecord MemoryClient [elements states node]
  client/Client
  (open! [this test node]
    (when (= :killed (@states node)) (throw (ex-info (str node " is killed") {})))
    (assoc this :node node))
  (setup! [this test])
  (invoke! [this test op]
    (Thread/sleep (rand-int 100))
    (while (= :paused (@states node)) (Thread/sleep 10))
    (cond
      (= :killed (@states node)) (assoc op :type :fail, :error [:killed node])
      (= :read (:f op)) (assoc op :type :ok, :value @elements)
      :else (do (swap! elements conj (:value op)) (assoc op :type :ok, :latency 0.1))))
  (teardown! [this test])
  (close! [this test]))

(defn -main [& [folder]]
  (let [states (atom {})]
    (jeprun/run-test!
      {:settings (io/file (.getParent (io/file *file*)) "../python/memory.toml")
       :client (->MemoryClient (atom #{}) states nil)
       :test {:nodes ["n1" "n2" "n3"]}
       :set-link! (fn [test source destination cell])
       :set-node! (fn [test node cell] (swap! states assoc node (:process cell)))
       :teardown! (fn [test])
       :folder (or folder ".")
       :call-timeout 500})))

(System/exit (apply -main *command-line-args*))
