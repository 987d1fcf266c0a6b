// Hooks that write the logs which trace/export.py reads: a sketch for Akka 2.6 typed, untested here.
// docs/JUDGE.md has the events, and where each is to be written.
object Trace {
  private val out = new java.io.PrintWriter(new java.io.FileWriter(sys.env("TRACE_FILE"), true), true)
  private var node = ("", 0L)
  def begin(system: ActorSystem[_]): Unit = {
    val own = Cluster(system).selfMember.uniqueAddress
    node = (own.address.hostPort, own.longUid)
    write("node-up")
  }
  private def json(it: Any): String = it match {
    case text: String => "\"" + text.flatMap {
      case c if c < ' ' || c == '"' || c == '\\' => f"\\u${c.toInt}%04x"
      case c => c.toString } + "\""
    case number: Long => number.toString
    case other => json(other.toString)
  }
  def write(event: String, keys: (String, Any)*): Unit = synchronized {
    val all = Seq("node" -> node._1, "incarnation" -> node._2.toString, "event" -> event) ++ keys
    out.println(all.map { case (key, it) => json(key) + ":" + json(it) }.mkString("{", ",", "}"))
  }
}

def apply(id: String): Behavior[Command] = Behaviors.setup { context =>
  Trace.write("entity-started", "entity" -> id)
  def at = EventSourcedBehavior.lastSequenceNumber(context)
  EventSourcedBehavior[Command, Event, State](PersistenceId("Order", id), State.empty, onCommand, onEvent)
    .receiveSignal {
      case (_, RecoveryCompleted) => Trace.write("entity-recovered", "entity" -> id, "nr" -> at)
      case (_, SnapshotCompleted(it)) => Trace.write("snapshot", "entity" -> id, "nr" -> it.sequenceNr)
      case (_, PostStop | PreRestart) => Trace.write("entity-stopped", "entity" -> id)
    }
}
// in onCommand, of a delivery by reliable delivery; at is the number behind the last event
Effect.persist(event)
  .thenRun((_: State) => Trace.write("record", "entity" -> id, "nr" -> at,
    "producer" -> delivery.producerId, "by" -> delivery.seqNr, "command" -> delivery.message))
  .thenRun((_: State) => delivery.confirmTo ! ConsumerController.Confirmed)

class TracedLease(own: Lease, shard: String) extends Lease(own.settings) {
  private def taken(it: Boolean) = { if (it) Trace.write("lease-taken", "shard" -> shard); it }
  def acquire() = own.acquire().map(taken)(ExecutionContext.parasitic)
  def acquire(lost: Option[Throwable] => Unit) =
    own.acquire { why => Trace.write("lease-lost", "shard" -> shard); lost(why) }.map(taken)(ExecutionContext.parasitic)
  def release() = { Trace.write("lease-released", "shard" -> shard); own.release() }
  def checkLease() = own.checkLease()
}
