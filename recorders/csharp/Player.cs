using System;
using System.Collections.Generic;
using System.Globalization;
using System.IO;
using System.Linq;
using System.Text;
using System.Text.RegularExpressions;
using System.Threading;
using MonitorRecorder;
using static MonitorRecorder.Recorder;

/// <summary>Makes the calls that it is told on its standard input, with the recorder for C#: see
/// recorders/cases/README.md.</summary>
internal sealed class Player
{
    private static readonly UTF8Encoding Utf8 = new UTF8Encoding(false);
    private static readonly StreamWriter Output = new StreamWriter(Console.OpenStandardOutput(), Utf8);

    private readonly Dictionary<string, Recorder> recorders = new Dictionary<string, Recorder>();
    private Recorder recorder;
    /// <summary>The text of the last refusal.</summary>
    private string refusal = "";
    private int total;

    private static void Main()
    {
        var player = new Player();
        var lines = new StreamReader(Console.OpenStandardInput(), Utf8);
        for (string line = ReadLine(lines); line != null; line = ReadLine(lines))
        {
            string[] words = line.Split(' ');
            Say(player.Answer(words[0], words.Skip(1).ToArray()));
        }
    }

    /// <summary>A line without its LF; a CR is a character of it.</summary>
    private static string ReadLine(TextReader lines)
    {
        var line = new StringBuilder();
        for (int read = lines.Read(); read >= 0; read = lines.Read())
        {
            if (read == '\n')
            {
                return line.ToString();
            }
            line.Append((char)read);
        }
        return null;
    }

    private static void Say(string answer)
    {
        lock (Output)
        {
            Output.Write(answer + "\n");
            Output.Flush();
        }
    }

    private string Answer(string call, string[] words)
    {
        try
        {
            string given = Make(call, words);
            return given == null ? "recorded" : "recorded " + given;
        }
        catch (NotRecordedException error)
        {
            refusal = error.Message;
            string reason = Regex.Replace(error.Reason.ToString(), "(?<!^)([A-Z])", "-$1");
            return "refused " + reason.ToLowerInvariant();
        }
        catch (Exception error) when (error is FormatException || error is OverflowException
            || error is NotSupportedException)
        {
            return "cannot"; // C# has no such value of 64 bits, or no such call
        }
        catch (Exception error) when (error is IOException || error is UnauthorizedAccessException)
        {
            return "failed";
        }
    }

    /// <summary>Makes a call, and gives the text that it gives, or null.</summary>
    private string Make(string call, string[] words)
    {
        string[] rest = words.Skip(1).ToArray();
        switch (call)
        {
            case "file": Begin(words[0], ToFile(TextOf(words[0]), TextOf(words[1]))); break;
            case "port": Begin(words[0], ToPort(TextOf(words[0]), int.Parse(words[1]), SecondsOf(words[2]))); break;
            case "token-port":
                Begin(words[0], ToPort(TextOf(words[0]), int.Parse(words[1]), SecondsOf(words[2]), TextOf(words[3])));
                break;
            case "again": Begin(words[0], ToFile(TextOf(words[0]), TextOf(words[1]), again: true)); break;
            case "place": Begin(words[0], ToPlace(TextOf(words[0]), TextOf(words[1]))); break;
            case "again-at": Begin(words[0], ToPlace(TextOf(words[0]), TextOf(words[1]), again: true)); break;
            case "long": Begin(words[0], ToFile(TextOf(words[0]), TextOf(words[1]), isLong: true)); break;
            case "long-at": Begin(words[0], ToPlace(TextOf(words[0]), TextOf(words[1]), isLong: true)); break;
            case "said": return refusal;
            case "strand": recorders[words[0]] = recorder.Strand(TextOf(words[0])); break;
            case "join": recorder.Join(recorders[words[0]], SettingsOf(rest)); break;
            case "in": return MakeIn(words[0], words[1], words.Skip(2).ToArray());
            case "event": recorder.Event(SettingsOf(words)); break;
            case "send": return recorder.Send(SettingsOf(words));
            case "send-as": recorder.SendAs(TextOf(words[0]), SettingsOf(rest)); break;
            case "receive": recorder.Receive(TextOf(words[0]), SettingsOf(rest)); break;
            case "events": return recorder.Events.ToString(CultureInfo.InvariantCulture);
            case "end": recorder.End(); break;
            case "close": recorder?.Dispose(); break;
            case "threads": Run(int.Parse(words[0]), thread => TakeTurns(thread, int.Parse(words[1]))); break;
            case "strands": TakeStrands(int.Parse(words[0]), int.Parse(words[1])); break;
            case "flood": Run(int.Parse(words[0]), _ => SendAll()); break;
            case "send-text": case "lock": case "unlock": case "put": case "take": case "locked": case "unlocked":
            case "noted": case "replaced": case "note": case "signals": case "noted-again":
                throw new NotSupportedException();
            default: throw new InvalidOperationException("no call " + call);
        }
        return null;
    }

    private void Begin(string process, Recorder made)
    {
        recorder = made;
        recorders.Clear();
        recorders[process] = made;
    }

    /// <summary>Makes the call by the recorder of a strand.</summary>
    private string MakeIn(string name, string call, string[] words)
    {
        Recorder process = recorder;
        recorder = recorders[name];
        try
        {
            return Make(call, words);
        }
        finally
        {
            recorder = process;
        }
    }

    private void TakeTurns(int thread, int turns)
    {
        for (int turn = 0; turn < turns; turn++)
        {
            string id = recorder.Send(Set("x" + thread, turn));
            recorder.Event(Set("y" + thread, long.Parse(id.Substring(id.LastIndexOf('-') + 1))));
            recorder.Receive("m" + thread + "-" + turn);
            lock (recorder.SyncRoot)
            {
                total++;
                recorder.Event(Set("total", total));
            }
        }
    }

    private void TakeStrands(int count, int turns)
    {
        Recorder[] strands = Enumerable.Range(0, count).Select(number => recorder.Strand("strand" + number)).ToArray();
        Run(count, number =>
        {
            using (Recorder strand = strands[number])
            {
                for (int turn = 0; turn < turns; turn++)
                {
                    strand.Event(Set("x", turn));
                }
            }
        });
        foreach (Recorder strand in strands)
        {
            recorder.Join(strand);
        }
    }

    private void SendAll()
    {
        try
        {
            while (true)
            {
                Say("sent " + recorder.Send());
            }
        }
        catch (NotRecordedException)
        {
            // there are no more events
        }
    }

    /// <summary>Runs so many threads to their ends.</summary>
    private void Run(int count, Action<int> work)
    {
        total = 0;
        Thread[] threads = Enumerable.Range(0, count).Select(number => new Thread(() => work(number))).ToArray();
        foreach (Thread thread in threads)
        {
            thread.Start();
        }
        foreach (Thread thread in threads)
        {
            thread.Join();
        }
    }

    private static TimeSpan SecondsOf(string word)
    {
        return TimeSpan.FromSeconds(double.Parse(word, CultureInfo.InvariantCulture));
    }

    private static Setting[] SettingsOf(string[] words)
    {
        return Array.ConvertAll(words, word =>
        {
            int place = word.LastIndexOf('=');
            string name = TextOf(word.Substring(0, place)), value = word.Substring(place + 1);
            return value == "true" || value == "false"
                ? Set(name, value == "true")
                : Set(name, long.Parse(value, NumberStyles.AllowLeadingSign, CultureInfo.InvariantCulture));
        });
    }

    /// <summary>The text for which a word stands: % and two digits are a byte, and % alone is no text at all.</summary>
    private static string TextOf(string word)
    {
        if (word == "%")
        {
            return "";
        }
        var bytes = new MemoryStream();
        for (int place = 0; place < word.Length; place++)
        {
            int size = char.IsHighSurrogate(word[place]) ? 2 : 1;
            byte[] added = word[place] == '%'
                ? new[] { Convert.ToByte(word.Substring(place + 1, 2), 16) }
                : Utf8.GetBytes(word.Substring(place, size));
            bytes.Write(added, 0, added.Length);
            place += word[place] == '%' ? 2 : size - 1;
        }
        return Utf8.GetString(bytes.ToArray());
    }
}
