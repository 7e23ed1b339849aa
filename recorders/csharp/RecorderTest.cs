using System;
using System.IO;
using System.Text;
using MonitorRecorder;
using static MonitorRecorder.Recorder;

/// <summary>Tests of what the cases can't say. Each is given a path in an empty folder.</summary>
internal static class RecorderTest
{
    private static int Main(string[] arguments)
    {
        Action<string>[] tests = { Places, Tokens, LongRecordings, StrandsWithoutAPlace, BlocksThatAreLeft,
            TextsThatAreNone, LinesThatFail, StrandsThatFail };
        int wrong = 0;
        foreach (Action<string> test in tests)
        {
            try
            {
                string folder = Path.Combine(arguments[0], test.Method.Name);
                Directory.CreateDirectory(folder);
                test(Path.Combine(folder, "left.stream"));
            }
            catch (Exception error)
            {
                wrong++;
                Console.WriteLine("csharp: " + test.Method.Name + ": " + error);
            }
        }
        Console.WriteLine("csharp: " + tests.Length + " tests, " + wrong + " wrong");
        return wrong == 0 ? 0 : 1;
    }

    private static void Places(string path)
    {
        string folder = Path.Combine(Path.GetDirectoryName(path), "new", "one");
        Environment.SetEnvironmentVariable("MONITOR_TO", folder);
        using (Recorder left = FromEnvironment("left"))
        {
            left.End();
        }
        See("{\"process\":\"left\"}\n{\"end\":true}\n", Path.Combine(folder, "left.stream"));
        Fails<IOException>(() => FromEnvironment("left"));
        try
        {
            FromEnvironment("left");
        }
        catch (IOException error)
        {
            Same("True", error.Message.StartsWith("MONITOR_TO is " + folder + ": ").ToString());
        }
        Environment.SetEnvironmentVariable("MONITOR_TO", null);
        Refuses(Reason.Place, () => FromEnvironment("left"));
        Refuses(Reason.Place, () => ToPlace("left", ":0"));
        Refuses(Reason.Place, () => ToPlace("left", "localhost:65535"));
        Refuses(Reason.ProcessName, () => ToPlace("not", folder));
        Refuses(Reason.ProcessName, () => ToPlace("left\n", folder));
        File.WriteAllText(path, "");
        Fails<IOException>(() => ToPlace("left", path));
    }

    private static void Tokens(string path)
    {
        foreach (string token in new[] { "a\0b", "\ud800", "\ufffd", "a\n", new string('x', 1025) })
        {
            Refuses(Reason.Token, () => ToPort("left", 1, token));
            Refuses(Reason.Token, () => ToPlace("left", ":1", token: token));
        }
    }

    private static void LongRecordings(string path)
    {
        var bytes = new MemoryStream();
        string id = new string('x', LongIdByteLimit);
        var left = new Recorder("left", bytes, isLong: true);
        left.Receive(id);
        Refuses(Reason.Id, () => left.SendAs(id + "x"));
        left.End();
        Same("{\"process\":\"left\"}\n{\"recv\":\"" + id + "\"}\n{\"end\":true}\n",
            Encoding.UTF8.GetString(bytes.ToArray()));
    }

    private static void StrandsWithoutAPlace(string path)
    {
        var bytes = new MemoryStream();
        var left = new Recorder("left", bytes);
        Refuses(Reason.NoPlace, () => left.Strand("worker"));
        Refuses(Reason.NotEnded, () => left.Join(null));
        left.Event(Set("x", true));
        left.Dispose();
        left.Dispose();
        Same("{\"process\":\"left\"}\n{\"set\":{\"x\":1}}\n", Encoding.UTF8.GetString(bytes.ToArray()));
    }

    /// <summary>A strand has ended, whichever way its block is left; the process hasn't.</summary>
    private static void BlocksThatAreLeft(string path)
    {
        Fails<TimeoutException>(() =>
        {
            using (Recorder left = ToFile("left", path))
            {
                Recorder worker = left.Strand("worker");
                Fails<ArgumentException>(() =>
                {
                    using (worker)
                    {
                        throw new ArgumentException();
                    }
                });
                left.Join(worker, Set("x", 2));
                left.Strand("open");
                throw new TimeoutException();
            }
        });
        See("{\"process\":\"left\"}\n{\"send\":\"left-1\"}\n{\"recv\":\"worker-1\",\"set\":{\"x\":2}}\n"
            + "{\"send\":\"left-2\"}\n", path);
        See("{\"process\":\"worker\"}\n{\"recv\":\"left-1\"}\n{\"send\":\"worker-1\"}\n{\"end\":true}\n",
            Beside(path, "worker"));
        See("{\"process\":\"open\"}\n{\"recv\":\"left-2\"}\n", Beside(path, "open"));
    }

    private static void TextsThatAreNone(string path)
    {
        using (Recorder left = ToFile("left", path))
        {
            Refuses(Reason.Id, () => left.SendAs(null));
            Refuses(Reason.Id, () => left.Receive("\ud800"));
            Refuses(Reason.VariableName, () => left.Event(Set(null, 1)));
            Refuses(Reason.VariableName, () => left.Event(Set("x", 1), Set("x", 1)));
            Refuses(Reason.VariableName, () => left.Event(Set("x\n", 1)));
            left.End();
        }
        See("{\"process\":\"left\"}\n{\"end\":true}\n", path);
    }

    /// <summary>A stream that takes so many writes, and then fails.</summary>
    private sealed class Failing : MemoryStream
    {
        private int left;

        internal Failing(int writes)
        {
            left = writes;
        }

        public override void Write(byte[] buffer, int offset, int count)
        {
            if (left-- == 0)
            {
                throw new IOException("full");
            }
            base.Write(buffer, offset, count);
        }
    }

    private static void LinesThatFail(string path)
    {
        var left = new Recorder("left", new Failing(2));
        left.Event();
        Fails<IOException>(() => left.Send());
        Refuses(Reason.Broken, () => left.Event());
        Refuses(Reason.Broken, left.End);
        Same("1", left.Events.ToString());
        left.Dispose();
        Refuses(Reason.Ended, () => left.Event());
        Fails<IOException>(() => new Recorder("left", new Failing(0)));
    }

    private static void StrandsThatFail(string path)
    {
        using (Recorder left = ToFile("left", path))
        {
            Directory.CreateDirectory(Beside(path, "folder"));
            Fails<Exception>(() => left.Strand("folder"));
            left.End();
        }
        See("{\"process\":\"left\"}\n{\"end\":true}\n", path);
    }

    private static string Beside(string path, string name)
    {
        return Path.Combine(Path.GetDirectoryName(path), name + ".stream");
    }

    private static void See(string wanted, string path)
    {
        Same(wanted, File.ReadAllText(path));
    }

    private static void Same(string wanted, string text)
    {
        if (text != wanted)
        {
            throw new InvalidDataException("there is\n" + text + "\nand not\n" + wanted);
        }
    }

    private static void Refuses(Reason reason, Action call)
    {
        Same(reason.ToString(), Fails<NotRecordedException>(call).Reason.ToString());
    }

    private static T Fails<T>(Action call) where T : Exception
    {
        try
        {
            call();
        }
        catch (T error)
        {
            return error;
        }
        throw new InvalidDataException("there is no " + typeof(T).Name);
    }
}
