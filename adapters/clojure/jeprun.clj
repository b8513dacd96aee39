(ns jeprun
  "Drives a client of Jepsen, as it stands, by `jeprun drive`. README.md beside this file says how, and docs/adapters.md
  has the lines that are read and written here."
  (:require [clojure.edn :as edn]
            [clojure.java.io :as io]
            [jepsen.client :as client])
  (:import (clojure.lang MapEntry)
           (java.io BufferedReader IOException Writer)
           (java.lang ProcessBuilder$Redirect)
           (sun.misc Signal SignalHandler)))

(defn- plain
  "A value that `jeprun` has a form for. Any other one, as a float, becomes a string."
  [value]
  (cond
    (or (nil? value) (boolean? value) (string? value) (keyword? value)) value
    (and (integer? value) (<= Long/MIN_VALUE value Long/MAX_VALUE)) value
    (map? value) (into {} (map (fn [[k v]] [(plain k) (plain v)])) value)
    (set? value) (into #{} (map plain) value)
    (sequential? value) (mapv plain value)
    :else (str value)))

(defn- say!
  "Writes a reply: to the file first, so that the file has whatever `jeprun drive` has read."
  [{:keys [^Writer kept ^Writer writer]} reply]
  (let [line (str (pr-str reply) "\n")]
    (locking kept
      (doto kept (.write line) .flush)
      (try (doto writer (.write line) .flush)
           (catch IOException _))))) ; it has ended, which is seen where its lines are read

(defn- now
  "Nanoseconds since the test began."
  [{:keys [began]}]
  (- (System/nanoTime) began))

(defn- fail!
  "Says what went wrong. The test is stopped, and fails, whatever the verdict."
  [{:keys [failures] :as run} text]
  (swap! failures conj text)
  (binding [*out* *err*] (print (str "jeprun.clj: " text "\n")) (flush))
  (dotimes [_ 2] (say! run :stop)))

(defn- invoke!
  "Makes a call by the connection of its thread, and gives its completion. What was never begun has failed. A call that
  ran out may have been done; what it still says is dropped, and its connection, which nobody waits for, closed."
  [{:keys [client test call-timeout]} slot op]
  (let [state (atom :opening)
        connection (atom @slot)
        call (future
               (try
                 (when-not @connection
                   (reset! connection (client/open! client test (:node op))))
                 (when (compare-and-set! state :opening :begun)
                   (client/invoke! @connection test op))
                 (catch Throwable e
                   (assoc op :type (if (= :begun @state) :info :fail), :error (str e)))))
        done (deref call call-timeout ::late)
        done (if (= ::late done)
               (assoc op :type (if (compare-and-set! state :opening :late) :fail :info), :error "timed out")
               done)
        can-go-on? (and (= :begun @state) (not= :info (:type done)))]
    (future-cancel call)
    (reset! slot (when can-go-on? @connection))
    (when-not (or can-go-on? (nil? @connection))
      (future (client/close! @connection test)))
    done))

(defn- call!
  "Makes a call, and replies. An answer that does not suit is none: `jeprun drive` would wait for another one."
  [{:keys [slots independent?] :as run} {:keys [process f value] :as op}]
  (let [asked (if independent? (MapEntry. (first value) (second value)) value) ; a tuple of jepsen.independent
        done (invoke! run (nth slots (mod process (count slots))) (assoc op :value asked))
        got (if (and (= :ok (:type done)) (#{:read :generate :txn} f)) (:value done) value)
        suits? (and (#{:ok :fail :info} (:type done))
                    (or (not= :read f) ((if independent? vector? (some-fn nil? integer? coll?)) got)))]
    (when-not suits?
      (fail! run (str (pr-str op) " was answered by " (pr-str done))))
    (say! run (plain (assoc (dissoc (if (map? done) (into {} done) {}) :index :node)
                            :type (if suits? (:type done) :info), :process process, :f f
                            :value (if suits? got value), :time (now run))))))

(defn- step!
  "Makes links and nodes what they have to be, and replies. A step that ran out ends before the next one begins."
  [{:keys [set-link! set-node! step-timeout test steps] :as run} {:keys [value links nodes]}]
  (let [work (future
               (locking steps
                 (try
                   (doseq [[source destination cell] links] (set-link! test source destination cell))
                   (doseq [[node cell] nodes] (set-node! test node cell))
                   (catch Throwable e (str e)))))
        error (deref work step-timeout "timed out")]
    (when error (fail! run (str "step " value ": " error)))
    (say! run (cond-> {:type :info, :process :nemesis, :f :step, :value value, :time (now run)}
                error (assoc :error error)))))

(defn- on-ctrl-c!
  "Ctrl-C stops the test; once more leaves out the final calls, too; a third one tears down and ends this program."
  [run]
  (let [times (atom 0)]
    (Signal/handle (Signal. "INT") (reify SignalHandler
                                     (handle [_ _] (if (< 2 (swap! times inc)) (System/exit 130) (say! run :stop)))))))

(defn- converse!
  "Does what the lines say, until the last one was read. Keeps them all, and gives the last one, which is the verdict."
  [{:keys [over?] :as run} ^BufferedReader reader ^Writer report]
  (loop [verdict nil]
    (if-let [line (.readLine reader)]
      (let [ends? (= ":end" line)
            op (when-not (or ends? @over?) (edn/read-string line))]
        (doto report (.write (str line "\n")) .flush)
        (when ends? (reset! over? true))
        (when op (future ((if (= :nemesis (:process op)) step! call!) run op)))
        (recur line))
      verdict)))

(defn run-test!
  "Runs a test. Gives the exit status of `jeprun drive`, or 5 where a step or the client's code failed. Options:
  :settings, a file; :client, a client of Jepsen; :test, the map that it is given, with :nodes; :set-link!, (fn [test
  source destination cell]), and :set-node!, (fn [test node cell]); :teardown!, (fn [test]), which also runs where this
  program is stopped; :folder, where replies and report are kept; :call-timeout and :step-timeout, in milliseconds."
  [{:keys [settings client test teardown! folder] :as options}]
  (let [text (slurp settings)
        threads (parse-long (second (re-find #"(?m)^\s*clients\s*=\s*(\d+)" text)))
        teardown (delay (teardown! test))
        _ (.addShutdownHook (Runtime/getRuntime) (Thread. (fn [] @teardown)))
        connections (mapv #(client/open! client test %) (:nodes test))
        _ (run! #(client/setup! % test) connections)
        ;; In a session of its own, so that Ctrl-C reaches this program alone.
        program (.start (doto (ProcessBuilder. ^java.util.List ["setsid" "jeprun" "drive" (str settings)])
                          (.redirectError ProcessBuilder$Redirect/INHERIT)))]
    (with-open [kept (io/writer (io/file folder "replies.edn"))
                report (io/writer (io/file folder "report.edn"))
                writer (io/writer (.getOutputStream program))
                reader (io/reader (.getInputStream program))]
      (let [run (merge {:call-timeout 5000, :step-timeout 30000, :set-link! (fn [& _]), :set-node! (fn [& _])} options
                       {:kept kept, :writer writer, :began (System/nanoTime), :over? (atom false), :failures (atom [])
                        :independent? (re-find #"(?m)^\s*threads_per_key\s*=" text), :steps (Object.)
                        :slots (vec (repeatedly threads #(atom nil)))})]
        (on-ctrl-c! run)
        (future (while (not @(:over? run)) (say! run (now run)) (Thread/sleep 5)))
        (println (converse! run reader report))
        (doseq [method [client/teardown! client/close!], connection connections] (method connection test))
        @teardown
        (if (seq @(:failures run)) 5 (.waitFor program))))))
