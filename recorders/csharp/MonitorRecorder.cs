using System;
using System.Collections.Generic;
using System.Globalization;
using System.IO;
using System.Net;
using System.Net.Sockets;
using System.Text;
using System.Text.RegularExpressions;
using System.Threading;

namespace MonitorRecorder
{
    /// <summary>Why a call was refused.</summary>
    public enum Reason
    {
        /// <summary>No name of a process: letters, digits and _, at most 32, no digit first, no word of predicates.
        /// </summary>
        ProcessName,
        /// <summary>No name of a variable, or one that stands twice in one call.</summary>
        VariableName,
        /// <summary>A process has at most 16 variables.</summary>
        Variables,
        /// <summary>A process has at most 10,000 events, or 2,147,483,647 in a long recording. The last one of a strand
        /// is kept for its end.</summary>
        Events,
        /// <summary>The id of a message has 1 to 64 bytes of UTF-8, or 1,024 in a long recording.</summary>
        Id,
        /// <summary>The process has sent or received a message with this id before, so a receipt is that of a second
        /// copy.</summary>
        IdTwice,
        /// <summary>The recording has ended, or was closed.</summary>
        Ended,
        /// <summary>An earlier line could not be written, so none is any more.</summary>
        Broken,
        /// <summary>The name is that of the process or of another strand of it.</summary>
        NameTwice,
        /// <summary>A process and its strands are at most 16, or 4,096 in a long recording.</summary>
        Processes,
        /// <summary>The recorder was made for an open stream, so there is no place for a strand's.</summary>
        NoPlace,
        /// <summary>What is to be joined is no strand that has ended.</summary>
        NotEnded,
        /// <summary>MONITOR_TO isn't set, or names no folder, port or socket that there can be.</summary>
        Place,
        /// <summary>An earlier incarnation of the process still runs.</summary>
        Running,
        /// <summary>No earlier incarnation can be told, as of a connection.</summary>
        Again,
        /// <summary>A long recording goes to no connection, or MONITOR_LONG is neither 1 nor 0.</summary>
        Long,
        /// <summary>The token that is given, or MONITOR_TOKEN, is over 1,024 bytes of UTF-8, or has a LF, CR, NUL or
        /// U+FFFD.</summary>
        Token
    }

    /// <summary>A call was refused and wrote nothing: its message says why.</summary>
    public sealed class NotRecordedException : Exception
    {
        internal NotRecordedException(Reason reason, string message) : base(message)
        {
            Reason = reason;
        }

        /// <summary>Why the call was refused.</summary>
        public Reason Reason { get; }
    }

    /// <summary>A variable and the value that it has from now on.</summary>
    public struct Setting
    {
        /// <summary>A setting of this variable.</summary>
        public Setting(string name, long value)
        {
            Name = name;
            Value = value;
        }

        /// <summary>The name of the variable.</summary>
        public string Name { get; }

        /// <summary>The value that it has from now on.</summary>
        public long Value { get; }
    }

    /// <summary>
    /// Records one process of a distributed program for <c>monitor</c>: its events in their order, one line each.
    /// <code>
    /// using static MonitorRecorder.Recorder;
    ///
    /// using (var recorder = Recorder.ToFile("left", "left.stream"))
    /// {
    ///     recorder.Event(Set("inside", 1), Set("waiting", false)); // these are their values from now on
    ///     string message = recorder.Send(Set("money", 70));        // BEFORE the message leaves; the id goes with it
    ///     recorder.Receive("right-1", Set("money", 80));           // AFTER a message has come, with its id
    ///     recorder.End();
    /// }
    /// </code>
    /// Each line is handed to the operating system before the call returns, so that nothing that was recorded is lost
    /// if the process crashes. Several threads may use one recorder. What <c>monitor</c> would refuse is refused at
    /// once, by a <see cref="NotRecordedException"/>, and the recorder goes on as if the call hadn't been made. What
    /// the system refuses is an <see cref="IOException"/> or an <see cref="UnauthorizedAccessException"/>. The formats
    /// and limits are those of docs/SPECIFICATION.md.
    ///
    /// A block that is left before <see cref="End"/>, by an exception or a <c>return</c>, closes the recorder and
    /// leaves no end line, since nobody knows what the process would have done: <c>monitor</c> refuses the stream as
    /// <c>unended</c>.
    ///
    /// A session has limits, and a recording that is over them is refused at the call. With <c>isLong: true</c>, or
    /// MONITOR_LONG=1 in the environment, it is a long recording, of any length, which monitor_reduce.py reduces before
    /// it is judged.
    ///
    /// One recorder is one order of events. A thread or task that waits by itself gets a <see cref="Strand"/>, or the
    /// order in which it came is taken for a cause.
    /// </summary>
    public sealed class Recorder : IDisposable
    {
        /// <summary>At most so many events has a process.</summary>
        public const int EventLimit = 10000;
        /// <summary>At most so many variables has a process.</summary>
        public const int VariableLimit = 16;
        /// <summary>At most so many processes has a session: a process and its strands are as many at most.</summary>
        public const int ProcessLimit = 16;
        /// <summary>At most so many bytes has the name of a process or of a variable.</summary>
        public const int NameByteLimit = 32;
        /// <summary>At most so many bytes of UTF-8 has the id of a message, and at least one.</summary>
        public const int IdByteLimit = 64;
        /// <summary>At most so many events has a process of a long recording.</summary>
        public const int LongEventLimit = 2147483647;
        /// <summary>At most so many processes are a process of a long recording and its strands.</summary>
        public const int LongProcessLimit = 4096;
        /// <summary>At most so many bytes of UTF-8 has the id of a message in a long recording.</summary>
        public const int LongIdByteLimit = 1024;
        /// <summary>At most so many bytes of UTF-8 has a token.</summary>
        public const int TokenByteLimit = 1024;

        private const int PortLimit = 65534;
        private const int SocketByteLimit = 107;
        private const string SocketPrefix = "unix:";
        private const string Here = "127.0.0.1";
        private const string AsALongRun =
            "or record it as a long run: isLong: true or MONITOR_LONG=1, and reduce it by monitor_reduce.py";
        private const string Short = "\"\\\b\f\n\r\t";
        private static readonly Regex Name = new Regex(@"\A[A-Za-z_][A-Za-z0-9_]*\z");
        /// <summary>A port: of this machine, or of another one by its name or address. One of IPv6 stands in brackets.
        /// </summary>
        private static readonly Regex Port = new Regex(
            @"\A(?:\[([0-9A-Fa-f:.]+(?:%[A-Za-z0-9._-]+)?)\]|([A-Za-z0-9._-]*)):([0-9]{1,5})\z");
        private static readonly HashSet<string> Reserved = new HashSet<string> { "and", "or", "not", "true", "false" };
        private static readonly TimeSpan Patience = TimeSpan.FromSeconds(10);
        private static readonly TimeSpan Pause = TimeSpan.FromMilliseconds(50);
        private static readonly UTF8Encoding Utf8 = new UTF8Encoding(false, true);

        private readonly string process;
        private readonly Stream output;
        private readonly Family family;
        private readonly bool isLong;
        private readonly bool isStrand;
        private readonly HashSet<string> ids = new HashSet<string>();
        private readonly HashSet<string> names = new HashSet<string>();
        private bool ended;
        private bool broken;
        private int events;
        private int made;
        /// <summary>The id of the message by which a strand has ended.</summary>
        private volatile string last;

        /// <summary>Records to a file, a connection or whatever else takes bytes. Each line is flushed, and the stream
        /// is closed with the recorder. With <paramref name="isLong"/> it is a long recording, as that of
        /// <see cref="ToFile"/>.</summary>
        public Recorder(string process, Stream output, bool isLong = false)
            : this(process, output, IsLong(isLong), null)
        {
        }

        private Recorder(string process, Stream output, bool isLong, Family family)
        {
            this.process = CheckedProcess(process);
            this.output = output;
            this.isLong = isLong;
            isStrand = family != null;
            this.family = family ?? new Family(process, isLong);
            Write("{\"process\":" + Quoted(process) + "}");
        }

        /// <summary>Records to a new file. One that is there already is an <see cref="IOException"/>. With
        /// <paramref name="again"/> it is what the process recorded before it was killed and started again. Then a
        /// further incarnation is recorded, as a process of its own and to a file beside: of <c>left</c> and
        /// <c>left.stream</c> the second one is <c>left_2</c> in <c>left_2.stream</c>. Its first event receives the
        /// message <c>left-ended</c>, by which it comes after all that the one before did; monitor_mend adds the send.
        /// It is refused while the one before still runs. With <paramref name="isLong"/>, or MONITOR_LONG=1 in the
        /// environment, it is a long recording: it may have 2,147,483,647 events, 4,096 processes with its strands, and
        /// ids of 1,024 bytes, and has to be reduced by monitor_reduce.py before it is judged.</summary>
        public static Recorder ToFile(string process, string path, bool again = false, bool isLong = false)
        {
            CheckedProcess(process);
            isLong = IsLong(isLong);
            string first = Path.GetFullPath(path);
            string folder = Path.GetDirectoryName(first);
            Func<string, Stream> place = name => NewFile(Path.Combine(folder, name + ".stream"));
            return again ? Incarnation(process, first, isLong, place)
                : Over(process, NewFile(path), isLong, null, place);
        }

        /// <summary>Records to the first file of the process that isn't there yet.</summary>
        private static Recorder Incarnation(string process, string first, bool isLong, Func<string, Stream> place)
        {
            int number = 1;
            while (IsThere(PathOf(first, number)))
            {
                number++;
            }
            string before = IncarnationOf(process, number - 1);
            if (number > 1)
            {
                RefuseRunning(before, PathOf(first, number - 1));
            }
            string name = CheckedProcess(IncarnationOf(process, number));
            // It gets its name once the receipt stands in it, so that it has that whenever the process is killed.
            string part = NewPart(PathOf(first, number));
            Recorder recorder = null;
            try
            {
                recorder = Over(name, LockedFile(part), isLong, null, place);
                if (number > 1)
                {
                    recorder.Receive(before + "-ended");
                }
                File.Move(part, PathOf(first, number));
                return recorder;
            }
            catch
            {
                recorder?.CloseOut();
                File.Delete(part);
                throw;
            }
        }

        private static bool IsThere(string path)
        {
            return File.Exists(path) || Directory.Exists(path);
        }

        private static string IncarnationOf(string process, int number)
        {
            return number <= 1 ? process : process + "_" + number.ToString(CultureInfo.InvariantCulture);
        }

        /// <summary>The file of this incarnation, if that of the first one is given.</summary>
        private static string PathOf(string first, int number)
        {
            string name = IncarnationOf(Path.GetFileNameWithoutExtension(first), number);
            return Path.Combine(Path.GetDirectoryName(first), name + Path.GetExtension(first));
        }

        /// <summary>Where a file stands until it gets its name. A process that was killed before may have had the
        /// number of this one.</summary>
        private static string NewPart(string path)
        {
            string begin = path + "." + System.Diagnostics.Process.GetCurrentProcess().Id;
            string part = begin + ".part";
            for (int number = 2; IsThere(part); number++)
            {
                part = begin + "-" + number + ".part";
            }
            return part;
        }

        /// <summary>A new file with a lock that this process has on it for as long as it runs, if its folder can have
        /// locks.</summary>
        private static Stream LockedFile(string path)
        {
            var file = (FileStream)NewFile(path);
            try
            {
                file.Lock(0, long.MaxValue);
            }
            catch (IOException)
            {
                // without a lock it isn't seen that this process runs
            }
            return file;
        }

        /// <summary>Refuses what is started while the earlier incarnation with this file still runs, if a lock shows
        /// that.</summary>
        private static void RefuseRunning(string process, string path)
        {
            using (var file = new FileStream(path, FileMode.Open, FileAccess.ReadWrite, FileShare.ReadWrite, 1))
            {
                try
                {
                    file.Lock(0, long.MaxValue);
                }
                catch (IOException)
                {
                    throw Refused(Reason.Running, process + " still runs and records to " + path
                        + ": what is started beside it is no later incarnation, but a process of its own");
                }
            }
        }

        /// <summary>Records to <c>monitor serve</c> on a port of this machine, 1 to 65,534, which may listen up to ten
        /// seconds later; if nobody does by then, it is an <see cref="IOException"/>. A later call waits while the
        /// monitor doesn't read. It is refused with MONITOR_LONG=1, since a long recording is reduced before it is
        /// judged. Each connection begins with the token, if there is one, as the line that <c>monitor serve
        /// --token</c> asks for: this text or, without it, MONITOR_TOKEN in the environment.</summary>
        public static Recorder ToPort(string process, int port, string token = "")
        {
            return ToPort(process, port, Patience, token);
        }

        /// <summary>The same, with another time to wait for somebody who listens.</summary>
        public static Recorder ToPort(string process, int port, TimeSpan patience, string token = "")
        {
            return ToAddress(process, Here, port, patience, "the port is " + port, token, false);
        }

        /// <summary>Records to the port of a host or, without a port, to a socket with this path.</summary>
        private static Recorder ToAddress(string process, string host, int port, TimeSpan patience, string said,
            string token, bool isLong)
        {
            CheckedProcess(process);
            if (IsLong(isLong))
            {
                throw Refused(Reason.Long, said + ", and monitor serve judges within the limits of a session: record a "
                    + "long run to a folder, and reduce it by monitor_reduce.py; MONITOR_LONG is 1 for one");
            }
            byte[] line = TokenLine(token);
            Func<string, Stream> place = _ => Begun(ConnectionTo(host, port, patience), line);
            return Over(process, place(process), false, null, place);
        }

        /// <summary>What a connection begins with: this token or, if it is empty, that of MONITOR_TOKEN, and a LF;
        /// nothing if there is none. No error shows it. What isn't UTF-8 in the environment comes as U+FFFD.</summary>
        private static byte[] TokenLine(string given)
        {
            bool isGiven = !string.IsNullOrEmpty(given);
            string token = isGiven ? given : Environment.GetEnvironmentVariable("MONITOR_TOKEN") ?? "";
            try
            {
                byte[] line = Utf8.GetBytes(token.Length == 0 ? "" : token + "\n");
                if (line.Length <= TokenByteLimit + 1 && token.IndexOfAny(new[] { '\n', '\r', '\0', '\uFFFD' }) < 0)
                {
                    return line;
                }
            }
            catch (EncoderFallbackException)
            {
                // it is half a pair of surrogates
            }
            throw Refused(Reason.Token, (isGiven ? "the token" : "MONITOR_TOKEN") + " is no token, which is one line "
                + "of at most " + TokenByteLimit + " bytes of UTF-8, without LF, CR, NUL and U+FFFD");
        }

        /// <summary>The same connection, once this is written to it.</summary>
        private static Stream Begun(Stream connection, byte[] line)
        {
            try
            {
                connection.Write(line, 0, line.Length);
                return connection;
            }
            catch
            {
                connection.Dispose();
                throw;
            }
        }

        /// <summary>Whether a recording is a long one, as this or MONITOR_LONG says.</summary>
        private static bool IsLong(bool isLong)
        {
            string text = Environment.GetEnvironmentVariable("MONITOR_LONG") ?? "";
            if (text != "" && text != "0" && text != "1")
            {
                throw Refused(Reason.Long,
                    "MONITOR_LONG is \"" + text + "\", and is 1 for a long recording, or else 0");
            }
            return isLong || text == "1";
        }

        /// <summary>Records to where MONITOR_TO in the environment says, so that no code changes between a test and a
        /// live session: to a new file NAME.stream in a folder of this name, which is made if there is none; or to
        /// <c>monitor serve</c>, on a port of this machine, of <c>:7411</c> or <c>localhost:7411</c>, on one of another
        /// machine, of <c>host:7411</c> or <c>[fe80::1]:7411</c>, or by a Unix socket, of
        /// <c>unix:/run/monitor.sock</c>. What has a colon and no slash is no folder. A connection keeps no earlier
        /// incarnation, and is judged within the limits of a session, so <paramref name="again"/> and
        /// <paramref name="isLong"/> are refused with one. It begins with the token of MONITOR_TOKEN, as with that of
        /// <see cref="ToPort(string, int, string)"/>.</summary>
        public static Recorder FromEnvironment(string process, bool again = false, bool isLong = false)
        {
            string place = Environment.GetEnvironmentVariable("MONITOR_TO") ?? "";
            try
            {
                return ToPlace(process, place, again, isLong);
            }
            catch (IOException error)
            {
                throw new IOException("MONITOR_TO is " + place + ": " + error.Message, error);
            }
            catch (UnauthorizedAccessException error)
            {
                throw new UnauthorizedAccessException("MONITOR_TO is " + place + ": " + error.Message, error);
            }
        }

        /// <summary>The same, of a place that is given, and of a token that isn't empty.</summary>
        public static Recorder ToPlace(string process, string place, bool again = false, bool isLong = false,
            string token = "")
        {
            CheckedProcess(process);
            bool isSocket = place.StartsWith(SocketPrefix, StringComparison.Ordinal);
            bool hasColon = place.IndexOf(':') >= 0 && place.IndexOfAny(new[] { '/', '\\' }) < 0;
            if (!isSocket && !hasColon && place.Length > 0)
            {
                isLong = IsLong(isLong);
                Directory.CreateDirectory(place);
                return ToFile(process, Path.Combine(place, process + ".stream"), again, isLong);
            }
            string host = isSocket ? CheckedSocket(place.Substring(SocketPrefix.Length)) : "";
            int port = isSocket ? 0 : PortIn(place, out host);
            if (again)
            {
                throw Refused(Reason.Again, "MONITOR_TO is the connection " + place
                    + ", and only a folder has the recording of an earlier incarnation");
            }
            return ToAddress(process, host, port, Patience, "MONITOR_TO is " + place, token, isLong);
        }

        private static int PortIn(string place, out string host)
        {
            Match match = Port.Match(place);
            int port = match.Success ? int.Parse(match.Groups[3].Value, CultureInfo.InvariantCulture) : 0;
            if (port < 1 || port > PortLimit)
            {
                throw Refused(Reason.Place, "MONITOR_TO is \"" + place + "\", and names a folder, which has a slash if "
                    + "it has a colon, a port as :7411, host:7411 or [::1]:7411, from 1 to " + PortLimit
                    + ", or a socket as unix:/run/a.sock");
            }
            host = match.Groups[1].Value + match.Groups[2].Value;
            host = host == "" || host == "localhost" ? Here : host;
            return port;
        }

        private static string CheckedSocket(string path)
        {
            if (!path.StartsWith("/", StringComparison.Ordinal) || Utf8.GetByteCount(path) > SocketByteLimit)
            {
                throw Refused(Reason.Place, "MONITOR_TO is \"" + SocketPrefix + path + "\", and the path of a socket "
                    + "begins with / and has at most " + SocketByteLimit + " bytes");
            }
            return path;
        }

        private static Recorder Over(string process, Stream output, bool isLong, Family family,
            Func<string, Stream> place)
        {
            try
            {
                var recorder = new Recorder(process, output, isLong, family);
                if (place != null)
                {
                    recorder.family.Place = place;
                }
                return recorder;
            }
            catch
            {
                output.Dispose();
                throw;
            }
        }

        private static Stream NewFile(string path)
        {
            // A buffer of one byte keeps nothing that a crash would lose.
            return new FileStream(path, FileMode.CreateNew, FileAccess.Write, FileShare.ReadWrite, 1);
        }

        /// <summary>A variable and the value that it has from now on, for <c>using static</c>.</summary>
        public static Setting Set(string name, long value)
        {
            return new Setting(name, value);
        }

        /// <summary>The same, with 1 for true and 0 for false.</summary>
        public static Setting Set(string name, bool value)
        {
            return new Setting(name, value ? 1 : 0);
        }

        /// <summary>Hold it, by <c>lock (recorder.SyncRoot)</c>, if an event and its line must stay together.</summary>
        public object SyncRoot { get; } = new object();

        /// <summary>How many events are recorded.</summary>
        public int Events
        {
            get
            {
                lock (SyncRoot)
                {
                    return events;
                }
            }
        }

        /// <summary>Something happened in this process; these variables have these values from now on.</summary>
        public void Event(params Setting[] settings)
        {
            Record(null, null, settings);
        }

        /// <summary>This process sends a message to one other or, if the document is of version 2, to several: call it
        /// once, BEFORE the message leaves. The id that it makes and gives, the process's name and a counter as in
        /// <c>left-1</c>, has to travel with the message.</summary>
        public string Send(params Setting[] settings)
        {
            lock (SyncRoot)
            {
                CheckRoom();
                return SendAny(settings);
            }
        }

        /// <summary>The same, with an id that no other send of the session has.</summary>
        public void SendAs(string id, params Setting[] settings)
        {
            Record("send", CheckedId(id), settings);
        }

        /// <summary>A message has come, with this id: call it AFTER that. A second copy is refused, as
        /// <see cref="Reason.IdTwice"/>.</summary>
        public void Receive(string id, params Setting[] settings)
        {
            Record("recv", CheckedId(id), settings);
        }

        /// <summary>Begins a strand, for a thread or task that waits by itself: a recorder which is a process of the
        /// session, of this name. It is recorded to NAME.stream beside the file of this recorder, or to the same port.
        /// This process sends it a message, so call it where the thread is started. A strand ends by <see cref="End"/>
        /// or <see cref="Dispose"/>; then it sends a message to whoever joins it. It ends with its process at the
        /// latest.</summary>
        public Recorder Strand(string name)
        {
            CheckedProcess(name);
            lock (SyncRoot)
            {
                CheckRoom();
                Recorder strand = family.Begun(name);
                try
                {
                    strand.Receive(Send());
                    return strand;
                }
                catch
                {
                    strand.CloseOut();
                    throw;
                }
            }
        }

        /// <summary>This process has waited for a strand, which has ended: call it AFTER that. It receives the
        /// strand's last message; these variables have these values from now on.</summary>
        public void Join(Recorder strand, params Setting[] settings)
        {
            lock (SyncRoot)
            {
                CheckRoom();
                if (strand == null || strand.last == null)
                {
                    throw Refused(Reason.NotEnded, (strand == null ? "null" : strand.process)
                        + " is no strand that has ended: wait for it, and then join it");
                }
                Record("recv", strand.last, settings);
            }
        }

        /// <summary>Nothing more happens in this process: writes the end line, and closes the file or connection; its
        /// strands that have not ended get their end lines. A strand sends its last message before. A second call does
        /// nothing.</summary>
        public void End()
        {
            try
            {
                if (!isStrand)
                {
                    family.EndAll(strand => strand.CutOff());
                }
            }
            finally
            {
                EndOut(isStrand);
            }
        }

        /// <summary>Closes the file or connection. Without <see cref="End"/> before, the stream has no end line, and
        /// neither have those of its strands that have not ended. A strand ends by it, as by <see cref="End"/>.
        /// </summary>
        public void Dispose()
        {
            try
            {
                if (!isStrand)
                {
                    family.EndAll(strand => strand.CloseOut());
                }
                else if (!IsBroken())
                {
                    EndOut(true);
                }
            }
            finally
            {
                CloseOut();
            }
        }

        private bool IsBroken()
        {
            lock (SyncRoot)
            {
                return broken;
            }
        }

        private void EndOut(bool sendsLast)
        {
            lock (SyncRoot)
            {
                if (ended)
                {
                    return;
                }
                CheckOpen();
                if (sendsLast)
                {
                    last = SendAny();
                }
                Write("{\"end\":true}");
                CloseOut();
            }
        }

        /// <summary>The process of this strand ends before it: writes the end line alone.</summary>
        private void CutOff()
        {
            lock (SyncRoot)
            {
                try
                {
                    if (!broken)
                    {
                        EndOut(false);
                    }
                }
                finally
                {
                    CloseOut();
                }
            }
        }

        private void CloseOut()
        {
            lock (SyncRoot)
            {
                ended = true;
                output.Dispose();
            }
        }

        /// <summary>A process that is recorded, and its strands.</summary>
        private sealed class Family
        {
            private readonly string process;
            private readonly bool isLong;
            private readonly HashSet<string> names = new HashSet<string>();
            private readonly List<Recorder> strands = new List<Recorder>();
            private bool ended;

            internal Family(string process, bool isLong)
            {
                this.process = process;
                this.isLong = isLong;
                names.Add(process);
            }

            /// <summary>Opens the stream of a strand, if there is a place for it.</summary>
            internal Func<string, Stream> Place { private get; set; }

            /// <summary>A strand of this name, which has written its first line.</summary>
            internal Recorder Begun(string name)
            {
                lock (names)
                {
                    Check(name);
                    Recorder strand = Over(name, Place(name), isLong, this, null);
                    names.Add(name);
                    strands.Add(strand);
                    return strand;
                }
            }

            private void Check(string name)
            {
                if (ended)
                {
                    throw Refused(Reason.Ended, "the recording of " + process + " has ended");
                }
                if (names.Contains(name))
                {
                    throw Refused(Reason.NameTwice,
                        name + " is another process of this recording: give each strand a name of its own");
                }
                if (names.Count == (isLong ? LongProcessLimit : ProcessLimit))
                {
                    throw Refused(Reason.Processes, process + " and its strands are " + names.Count + " processes, and "
                        + (isLong ? "there can be no more"
                            : "a session has at most as many; begin fewer strands, " + AsALongRun));
                }
                if (Place == null)
                {
                    throw Refused(Reason.NoPlace,
                        process + " has no place for the stream of a strand: make its recorder by ToFile or ToPort");
                }
            }

            private Recorder[] All()
            {
                lock (names)
                {
                    ended = true;
                    return strands.ToArray();
                }
            }

            /// <summary>Ends each of the strands; if one can't be ended, the others are. No lock of the process is
            /// held.</summary>
            internal void EndAll(Action<Recorder> ending)
            {
                IOException failure = null;
                foreach (Recorder strand in All())
                {
                    try
                    {
                        ending(strand);
                    }
                    catch (IOException error)
                    {
                        failure = error;
                    }
                }
                if (failure != null)
                {
                    throw failure;
                }
            }
        }

        private string SendAny(params Setting[] settings)
        {
            int number = made + 1;
            while (ids.Contains(process + "-" + number))
            {
                number++;
            }
            string id = process + "-" + number;
            Put("send", id, settings);
            made = number;
            return id;
        }

        /// <summary>Checks an event and writes its line; the field is null for an event without a message.</summary>
        private void Record(string field, string id, Setting[] settings)
        {
            lock (SyncRoot)
            {
                CheckRoom();
                Put(field, id, settings);
            }
        }

        /// <summary>One of a strand's events is kept for its end.</summary>
        private void CheckRoom()
        {
            CheckOpen();
            int limit = isLong ? LongEventLimit : EventLimit;
            if (events >= (isStrand ? limit - 1 : limit))
            {
                throw Refused(Reason.Events, process + " has " + events + " events, and no process may have more than "
                    + limit + ", of which the last one of a strand is its end"
                    + (isLong ? "" : "; record fewer, " + AsALongRun));
            }
        }

        private void CheckOpen()
        {
            if (ended)
            {
                throw Refused(Reason.Ended, "the recording of " + process + " has ended");
            }
            if (broken)
            {
                throw Refused(Reason.Broken, "an earlier line of " + process + " could not be written");
            }
        }

        /// <summary>Checks the message and the variables of an event, and writes its line.</summary>
        private void Put(string field, string id, Setting[] settings)
        {
            if (id != null && ids.Contains(id))
            {
                throw Refused(Reason.IdTwice, process + " has sent or received " + Quoted(id) + " before");
            }
            HashSet<string> added = CheckedNames(settings);
            Write(LineOf(field, id, settings));
            events++;
            names.UnionWith(added);
            if (id != null)
            {
                ids.Add(id);
            }
        }

        private HashSet<string> CheckedNames(Setting[] settings)
        {
            var added = new HashSet<string>();
            foreach (Setting setting in settings)
            {
                if (!IsName(setting.Name) || !added.Add(setting.Name))
                {
                    throw Refused(Reason.VariableName, setting.Name + " is no name of a variable, or stands twice");
                }
            }
            var all = new HashSet<string>(names);
            all.UnionWith(added);
            if (all.Count > VariableLimit)
            {
                throw Refused(Reason.Variables, process + " has at most " + VariableLimit + " variables");
            }
            return added;
        }

        /// <summary>Hands the line to the system. If that fails, nothing more is written later.</summary>
        private void Write(string line)
        {
            // With the limits above no line has over 1,400 bytes, and no stream over 14,000,000: monitor takes more. A
            // line of a long recording has at most 7,200.
            byte[] bytes = Utf8.GetBytes(line + "\n");
            broken = true;
            output.Write(bytes, 0, bytes.Length);
            output.Flush();
            broken = false;
        }

        private static string LineOf(string field, string id, Setting[] settings)
        {
            var fields = new List<string>();
            if (field != null)
            {
                fields.Add(Quoted(field) + ":" + Quoted(id));
            }
            if (settings.Length > 0)
            {
                string[] pairs = Array.ConvertAll(settings, setting =>
                    Quoted(setting.Name) + ":" + setting.Value.ToString(CultureInfo.InvariantCulture));
                fields.Add("\"set\":{" + string.Join(",", pairs) + "}");
            }
            return "{" + string.Join(",", fields) + "}";
        }

        /// <summary>The text as JSON has it between quotes: as short as it can be.</summary>
        private static string Quoted(string text)
        {
            var quoted = new StringBuilder("\"");
            foreach (char character in text)
            {
                int place = Short.IndexOf(character);
                if (place >= 0)
                {
                    quoted.Append('\\').Append("\"\\bfnrt"[place]);
                }
                else if (character < ' ')
                {
                    quoted.Append("\\u").Append(((int)character).ToString("x4", CultureInfo.InvariantCulture));
                }
                else
                {
                    quoted.Append(character);
                }
            }
            return quoted.Append('"').ToString();
        }

        private static bool IsName(string name)
        {
            return name != null && Name.IsMatch(name) && name.Length <= NameByteLimit && !Reserved.Contains(name);
        }

        private static string CheckedProcess(string name)
        {
            if (!IsName(name))
            {
                throw Refused(Reason.ProcessName, name + " is no name of a process: letters, digits and _, at most "
                    + NameByteLimit + ", none of them a digit at first, and none of " + string.Join(", ", Reserved));
            }
            return name;
        }

        private string CheckedId(string id)
        {
            try
            {
                int limit = isLong ? LongIdByteLimit : IdByteLimit;
                int size = id == null ? 0 : Utf8.GetByteCount(id);
                if (size >= 1 && size <= limit)
                {
                    return id;
                }
                throw Refused(Reason.Id, "the id of a message has 1 to " + limit + " bytes, and this one has " + size);
            }
            catch (EncoderFallbackException)
            {
                throw Refused(Reason.Id, "this id can't be written in UTF-8");
            }
        }

        private static NotRecordedException Refused(Reason reason, string message)
        {
            return new NotRecordedException(reason, message);
        }

        /// <summary>A connection to a port of a host or, without a port, to a socket with this path, where nobody may
        /// listen yet.</summary>
        private static Stream ConnectionTo(string host, int port, TimeSpan patience)
        {
            var begun = System.Diagnostics.Stopwatch.StartNew();
            while (true)
            {
                Stream connection = port == 0 ? SocketNow(host) : ConnectionNow(host, port);
                if (connection != null)
                {
                    return connection;
                }
                if (begun.Elapsed >= patience)
                {
                    throw new IOException("nobody listens at " + host + (port == 0 ? "" : ", port " + port));
                }
                Thread.Sleep(Pause);
            }
        }

        /// <summary>The connection, or null if nobody listens.</summary>
        private static Stream ConnectionNow(string host, int port)
        {
            try
            {
                foreach (IPAddress address in Dns.GetHostAddresses(host))
                {
                    var made = new Socket(address.AddressFamily, SocketType.Stream, ProtocolType.Tcp);
                    Socket socket = Connected(made, new IPEndPoint(address, port));
                    // A connection to a port that nobody has bound can come to be with itself.
                    if (socket != null && !socket.LocalEndPoint.Equals(socket.RemoteEndPoint))
                    {
                        socket.NoDelay = true;
                        return new NetworkStream(socket, true);
                    }
                    socket?.Dispose();
                }
                return null;
            }
            catch (SocketException error)
            {
                throw new IOException(host + ", port " + port + ", can't be reached: " + error.Message, error);
            }
        }

        /// <summary>The connection, or null if nobody listens, or there is no socket of this path yet.</summary>
        private static Stream SocketNow(string path)
        {
            try
            {
                var made = new Socket(AddressFamily.Unix, SocketType.Stream, ProtocolType.Unspecified);
                Socket socket = Connected(made, new SocketEnd(path));
                return socket == null ? null : new NetworkStream(socket, true);
            }
            catch (SocketException error)
            {
                if (!File.Exists(path))
                {
                    return null;
                }
                throw new IOException("the socket " + path + " can't be reached: " + error.Message, error);
            }
        }

        /// <summary>The socket once it is connected, or null if nobody listens.</summary>
        private static Socket Connected(Socket socket, EndPoint end)
        {
            try
            {
                socket.Connect(end);
                return socket;
            }
            catch (SocketException error)
            {
                socket.Dispose();
                if (error.SocketErrorCode == SocketError.ConnectionRefused)
                {
                    return null;
                }
                throw;
            }
        }

        /// <summary>A socket with a path, as the system takes it. Mono has that class in another assembly.</summary>
        private sealed class SocketEnd : EndPoint
        {
            private readonly byte[] path;

            internal SocketEnd(string path)
            {
                this.path = Utf8.GetBytes(path);
            }

            public override AddressFamily AddressFamily => AddressFamily.Unix;

            public override SocketAddress Serialize()
            {
                var address = new SocketAddress(AddressFamily, 2 + path.Length + 1);
                for (int place = 0; place < path.Length; place++)
                {
                    address[2 + place] = path[place];
                }
                return address;
            }

            public override EndPoint Create(SocketAddress address)
            {
                return this;
            }
        }
    }
}
