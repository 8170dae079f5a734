;;; emacs_mode.el --- What the mode for Emacs marks, by scope, dictionary and personal list  -*- lexical-binding: t -*-

;; Runs in batch mode.  The environment has TOP, WORK (a folder), COMPILED (the folder of the mode), PROGRAM, and DICTIONARIES, the names of
;; real ones, which are prepared in WORK/data/affedit.  EDITS random edits are drawn from SEED.  Each failure is printed, and then how much
;; was compared.

(setq gc-cons-threshold 50000000 inhibit-message t make-backup-files nil auto-save-default nil create-lockfiles nil
      enable-local-variables :safe)
(defvar top (getenv "TOP"))
(defvar work (getenv "WORK"))
(setenv "XDG_DATA_HOME" (concat work "/data"))
(add-to-list 'load-path (getenv "COMPILED"))
(require 'affedit)
(require 'tex-mode)
(require 'python)
(setq affedit-program (getenv "PROGRAM"))

(defvar failures 0)
(defvar compared 0)
(defvar told nil "What the user was told, the latest first.")
(advice-add 'affedit--tell :before (lambda (&rest words) (push (apply #'format words) told)))
;; Nothing but a fault reaches this limit, in seconds, however loaded the machine is.
(defvar limit 120)

(defun expect (what holds &optional detail)
  "Count whether WHAT HOLDS, and print it with DETAIL if not."
  (setq compared (1+ compared))
  (unless holds
    (setq failures (1+ failures))
    (princ (format "emacs: %s%s\n" what (if detail (format ": %S" detail) "")))))

(defun wait (condition)
  "Wait for CONDITION, and return what it says."
  (let ((until (+ (float-time) limit)) result)
    (while (and (not (setq result (funcall condition))) (< (float-time) until))
      (accept-process-output nil 0.002))
    result))

(defun write (path text)
  "Make TEXT the text of the file PATH."
  (make-directory (file-name-directory path) t)
  (let ((coding-system-for-write 'utf-8-unix))
    (write-region text nil path nil 'silent)))

(defun read-file (path)
  "The text of the file PATH."
  (with-temp-buffer
    (let ((coding-system-for-read 'utf-8-unix))
      (insert-file-contents path))
    (buffer-string)))

(defun overlaid ()
  "The marks that are drawn, each (LINE START STOP) in bytes.  No redisplay runs in batch mode, so it is asked for."
  (affedit--fontify (point-min) (point-max))
  (wait #'affedit--idle-p)
  (affedit--fontify (point-min) (point-max))
  (let (marks)
    (dolist (overlay (overlays-in (point-min) (point-max)))
      (when (overlay-get overlay 'affedit)
        (goto-char (overlay-start overlay))
        (let ((line (position-bytes (line-beginning-position))))
          (push (list (line-number-at-pos)
                      (- (position-bytes (overlay-start overlay)) line) (- (position-bytes (overlay-end overlay)) line))
                marks))))
    (sort marks (lambda (one two) (or (< (car one) (car two)) (and (= (car one) (car two)) (< (cadr one) (cadr two))))))))

(defun expect-marks (what wanted)
  "The buffer has the marks WANTED, each (LINE START STOP): those that are known, and those that are drawn."
  (expect (concat what ": the marks are in") (wait #'affedit--idle-p))
  (save-excursion
    (expect what (equal wanted (affedit--list)) (list 'known (affedit--list) 'wanted wanted))
    (expect (concat what ", drawn") (equal wanted (overlaid)) (list 'drawn (overlaid) 'wanted wanted))))

(defun marked (what words)
  "The marked words of the buffer are WORDS."
  (expect (concat what ": the marks are in") (wait #'affedit--idle-p))
  (let (found)
    (affedit--each-line
     (lambda (_ line answer)
       (dolist (mark (and (listp answer) answer))
         (push (buffer-substring-no-properties (affedit--place line (car mark)) (affedit--place line (cdr mark))) found))))
    (expect what (equal words (nreverse found)) (list 'marked (affedit--list) 'wanted words))))

(defmacro with-text (mode text &rest body)
  "Do BODY in a buffer of MODE with TEXT, which is checked."
  (declare (indent 2))
  `(with-temp-buffer
     (insert ,text)
     (funcall ,mode)
     (affedit-mode 1)
     ,@body
     (affedit-mode -1)))

;; Scopes.

(defvar prose
  '(("the xx https://xx.example/xx?xx=xx. xx" (4 6) (36 38))
    ("(https://xx.example/xx_(xx)) xx www.xx.example, xx" (29 31) (48 50))
    ("xx.xx@xx.example, xx" (18 20))
    ("/xx/xx ./xx ../xx ~/.xx $XX/xx xx/xx.md:12:3 xx/ C:\\xx xx" (55 57))
    ("xx/xx the/xx xx@ @xx" (0 2) (3 5) (10 12) (13 15) (18 20))
    ("--xx=xx/xx.xx `/xx/xx`,the" (2 4))
    ("é xx mailto:xx@xx.example é /é/xx xx" (0 2) (3 5) (27 29) (37 39))
    ("xx" (0 2))
    ("/xx/xx"))
  "Lines and their marks that are in prose, by a dictionary that knows no word but `the'.")

(defun try-addresses ()
  "By default there are no marks in addresses, and with `all' there are."
  (let ((line 0) wanted)
    (dolist (case prose)
      (setq line (1+ line))
      (dolist (mark (cdr case))
        (push (cons line mark) wanted)))
    (with-text #'text-mode (mapconcat #'car prose "\n")
      (setq wanted (nreverse wanted))
      (expect-marks "marks in prose" wanted)
      (expect "marks in prose are counted" (= (length wanted) (plist-get (affedit--count) :marks)))
      (goto-char (point-min))
      (affedit-next)
      (affedit-next)
      (expect "a jump passes over an address" (= (point) 37) (point))
      (affedit-change-scope 'all)
      (wait #'affedit--idle-p)
      (expect "more is marked with `all'" (member '(1 18 25) (affedit--list)) (affedit--list))
      (expect "and drawn" (equal (affedit--list) (overlaid)))
      (expect "of other buffers the scope stays" (eq 'prose (default-value 'affedit-scope)))
      (affedit-change-scope 'prose)
      (expect-marks "marks in prose again" wanted)
      (expect "a scope that is none is refused" (condition-case nil (progn (affedit-change-scope 'some) nil) (user-error t))))
    (with-text #'text-mode "xx"
      (goto-char (point-max))
      (insert "/xx")
      (expect-marks "two words" '((1 0 2) (1 3 5)))
      (insert ".xx")
      (expect-marks "a path as soon as it is one" nil)
      (insert " xx")
      (expect-marks "prose behind a path" '((1 9 11))))))

(defun try-code ()
  "In code comments and strings are marked alone, and where a comment opens what follows it is."
  (with-text #'emacs-lisp-mode "(xxa \"xxb\" 'xxc) ; xxd /xxe/xxf\n\"xxg\nxxh\" xxi"
    (marked "Lisp" '("xxb" "xxd" "xxg" "xxh"))
    (expect-marks "Lisp" '((1 6 9) (1 19 22) (2 1 4) (3 0 3)))
    (affedit-change-scope 'all)
    (marked "all of Lisp" '("xxa" "xxb" "xxc" "xxd" "xxe" "xxf" "xxg" "xxh" "xxi")))
  (with-text #'python-mode "xxa = 'xxb' # xxc\ndef xxd():\n    '''xxe\n    xxf'''\n"
    (marked "Python" '("xxb" "xxc" "xxe" "xxf")))
  (with-text #'c-mode "int xxa;\nxxb xxc;\n/* xxd */\n"
    (marked "C" '("xxd"))
    (goto-char (point-min))
    (insert "/* ")
    (marked "C behind the sign of a comment" '("int" "xxa" "xxb" "xxc" "xxd"))
    (expect-marks "and drawn" '((1 3 6) (1 7 10) (2 0 3) (2 4 7) (3 3 6)))
    (delete-region (point-min) (point))
    (expect-marks "C without it again" '((3 3 6))))
  (with-text #'fundamental-mode "xxa \"xxb\" ; xxc"
    (marked "a mode that is neither" '("xxa" "xxb" "xxc"))))

(define-derived-mode own-mode text-mode "Own" "A mode with a predicate.")
(define-derived-mode derived-mode own-mode "Derived" "A mode that derives from it.")
(define-derived-mode failing-mode text-mode "Failing" "A mode with a predicate that fails.")
(put 'own-mode 'flyspell-mode-predicate (lambda () (not (eq (char-before) ?b))))
(put 'failing-mode 'flyspell-mode-predicate (lambda () (error "No verdict")))

(defun try-predicates ()
  "A mode's own predicate for flyspell is heeded."
  (with-text #'own-mode "xxa xxb xxc /xx/xx xxb"
    (marked "the predicate of a mode" '("xxa" "xxc"))
    (expect-marks "and drawn" '((1 0 3) (1 8 11))))
  (with-text #'derived-mode "xxa xxb xxc"
    (marked "the predicate of the mode that it derives from" '("xxa" "xxc"))
    (affedit-change-scope 'all)
    (marked "all" '("xxa" "xxb" "xxc")))
  (with-text #'failing-mode "xxa"
    (marked "a predicate that fails" '("xxa")))
  (with-text #'latex-mode "xxa \\cite{xxb} xxc"
    (marked "LaTeX" '("xxa" "xxc"))))

(defvar pieces
  ["https" "://" ":" "/" "//" "." ".." ".py" ".a2" "a" "xx" "@" "www." "WWW." "\\" "~" "$HOME" "C:" "(" ")" "[" "]" "{" "}" "|" "," ";"
   "`" "\"" "'" "*" "_" "=" "--" "<" ">" " " "\t" ":12" "?" "!" "%" "é" "-" "+" ".abcdefghij" ".abcdefghijk"]
  "What addresses and their surroundings are made of.")

(defun compare-addresses ()
  "Compare the addresses of random lines with those that `affedit-check' finds."
  (random "addresses")
  (let* ((lines (cl-loop repeat 3000 collect
                         (apply #'concat (cl-loop repeat (1+ (random 12)) collect (aref pieces (random (length pieces)))))))
         (script (concat "import sys; from check_command.prose import spans_of\n"
                         "for line in open(sys.argv[1], 'rb'): print(*(place for span in spans_of(line[:-1]) for place in span))"))
         (process-environment (append (list (concat "PYTHONPATH=" top "/tools") "PYTHONDONTWRITEBYTECODE=1") process-environment)))
    (write (concat work "/lines") (concat (string-join lines "\n") "\n"))
    (let ((wanted (process-lines "python3" "-c" script (concat work "/lines"))))
      (expect "affedit-check has looked at each line" (= (length lines) (length wanted)))
      (expect "some lines have addresses" (> (cl-count-if-not (lambda (line) (equal line "")) wanted) 500))
      (cl-mapc (lambda (line places)
                 (let ((found (mapconcat (lambda (span) (format "%d %d" (car span) (cdr span))) (affedit--addresses line) " ")))
                   (expect "the addresses of a line" (equal found places) (list line 'found found 'wanted places))))
               lines wanted))))

(defun try-scopes ()
  "What is marked of a buffer, by a dictionary that knows no word but `the'."
  (write (concat work "/the.aff") "SET UTF-8\n")
  (write (concat work "/the.dic") "1\nthe\n")
  (setq affedit-dictionary (concat work "/the"))
  (mapc #'funcall '(try-addresses try-code try-predicates))
  (when (executable-find "python3")
    (compare-addresses)))

;; Dictionaries and personal lists.

(defun list-of (name)
  "The personal list of the dictionary NAME."
  (concat work "/data/affedit/words." name))

(defun processes ()
  "The processes of the mode, those that end not counted."
  (cl-count-if #'affedit--speller-process affedit--spellers))

(defun program-processes ()
  "The processes that Emacs has of the program."
  (cl-count-if (lambda (process) (string-prefix-p "affedit" (process-name process))) (process-list)))

(defmacro with-buffers (names &rest body)
  "Do BODY with buffers NAMES, in text mode and not yet checked, and kill them."
  (declare (indent 1))
  `(let ,(mapcar (lambda (name) `(,name (generate-new-buffer ,(symbol-name name)))) names)
     ,@(mapcar (lambda (name) `(with-current-buffer ,name (text-mode))) names)
     ,@body
     ,@(mapcar (lambda (name) `(when (buffer-live-p ,name) (with-current-buffer ,name (set-buffer-modified-p nil)) (kill-buffer ,name)))
               names)
     (expect "no process is left" (wait (lambda () (= 0 (program-processes)))) (process-list))))

(defun make-dictionaries ()
  "Make the dictionaries `one' with cat and both, and `two' with dog and both."
  (dolist (words '(("one" . "cat\nboth\n") ("two" . "dog\nboth\n")))
    (write (concat work "/data/affedit/" (car words) ".aff") "SET UTF-8\n")
    (write (concat work "/data/affedit/" (car words) ".dic") (concat "2\n" (cdr words))))
  (write (concat work "/data/affedit/bad.aff") "SET ISO8859-1\n")
  (write (concat work "/data/affedit/bad.dic") "1\ncat\n")
  (setq-default affedit-dictionary "one"))

(defun try-processes ()
  "Each dictionary in use has one process, which ends with the last buffer that uses it."
  (make-dictionaries)
  (with-buffers (first second third)
    (dolist (buffer (list first second third))
      (with-current-buffer buffer
        (insert "cat dog both")
        (when (eq buffer third)
          (setq-local affedit-dictionary "two"))
        (affedit-mode 1)))
    (with-current-buffer first (marked "the dictionary of all" '("dog")))
    (with-current-buffer second (marked "that of another buffer" '("dog")))
    (with-current-buffer third (marked "that of one buffer" '("cat")))
    (expect "two dictionaries have two processes" (= 2 (processes) (program-processes)))
    (let ((process (affedit--speller-process (buffer-local-value 'affedit--speller first))))
      (kill-buffer first)
      (accept-process-output nil 0.1)
      (expect "a process stays while a buffer uses it" (and (process-live-p process) (= 2 (processes))))
      (with-current-buffer second (affedit-mode -1))
      (expect "it ends with the last one" (wait (lambda () (not (process-live-p process)))))
      (expect "the other one stays" (wait (lambda () (= 1 (processes) (program-processes))))))
    (let ((process (affedit--speller-process (buffer-local-value 'affedit--speller third))))
      (with-current-buffer third
        (text-mode)
        (affedit-mode 1)
        (accept-process-output nil 0.1)
        (expect "a buffer whose mode is set anew keeps its process"
                (eq process (affedit--speller-process affedit--speller)))
        (marked "and its dictionary" '("cat"))))))

(defun try-clones ()
  "A clone of a buffer is checked by itself, and holds the process."
  (make-dictionaries)
  (with-buffers (first)
    (with-current-buffer first
      (insert "cat dog both")
      (affedit-mode 1)
      (wait #'affedit--idle-p))
    (dolist (clone (with-current-buffer first (list (clone-indirect-buffer "indirect" nil) (clone-buffer "clone"))))
      (with-current-buffer clone
        (goto-char (point-max))
        (insert " bird")
        (marked "a clone" '("dog" "bird"))))
    (with-current-buffer first (affedit-mode -1))
    (accept-process-output nil 0.1)
    (expect "a clone holds the process" (= 1 (processes) (program-processes)))
    (mapc #'kill-buffer '("indirect" "clone"))
    (expect "until it goes" (wait (lambda () (= 0 (program-processes)))))))

(defun try-changes ()
  "The commands that choose a dictionary for a buffer, and for all."
  (make-dictionaries)
  (with-buffers (first second)
    (dolist (buffer (list first second))
      (with-current-buffer buffer
        (insert "cat dog both")
        (affedit-mode 1)))
    (with-current-buffer first
      (affedit-change-dictionary "two")
      (marked "a dictionary for this buffer" '("cat"))
      (expect-marks "and drawn" '((1 0 3))))
    (with-current-buffer second (marked "the other buffer keeps its own" '("dog")))
    (with-current-buffer second
      (setq told nil)
      (affedit-change-dictionary "bad")
      (marked "a dictionary that is not read" '("dog"))
      (expect "it is told" (and told (string-match-p "/bad is not read: .*bad.aff:1: OtherEncoding.*; nothing changes" (car told))) told)
      (expect "once" (= 1 (length told)) told)
      (expect "a dictionary that is not there is refused"
              (condition-case nil (progn (affedit-change-dictionary "none") nil) (user-error t)))
      (expect "both have no process" (= 2 (processes)) affedit--spellers))
    (with-current-buffer second
      (affedit-use-dictionary "two")
      (marked "a dictionary for all" '("cat"))
      (expect "the first one has no process any more" (wait (lambda () (= 1 (program-processes))))))
    (with-current-buffer first
      (affedit-use-dictionary "one")
      (marked "a buffer with one of its own keeps it" '("cat"))
      (with-current-buffer second (marked "one for all others" '("dog")))
      (affedit-change-dictionary "")
      (marked "an empty name is that of all" '("dog"))
      (expect "and no choice of the buffer" (not (local-variable-p 'affedit-dictionary))))))

(defun write-choice (&rest lines)
  "Make the file `file.txt', whose local variables LINES are."
  (write (concat work "/file.txt")
         (concat "cat dog both\n\nLocal " "Variables:\n" (string-join lines "\n") "\nEnd:\n")))

(defun try-files ()
  "A file may choose its dictionary by name, and its scope; a path is not safe."
  (make-dictionaries)
  (write-choice "affedit-dictionary: \"two\"" "affedit-scope: all")
  (let ((text-mode-hook (list #'affedit-mode)))
    (with-current-buffer (find-file-noselect (concat work "/file.txt"))
      (wait #'affedit--idle-p)
      (expect "the dictionary of a file" (equal "two" (file-name-nondirectory (affedit--speller-pair affedit--speller))))
      (expect "the scope of a file" (and (eq affedit-scope 'all) (member '(1 0 3) (affedit--list)) (not (member '(1 4 7) (affedit--list)))))
      (write-choice "affedit-dictionary: \"one\"")
      (revert-buffer t t)
      (wait #'affedit--idle-p)
      (expect "another one when the file is read anew" (and (member '(1 4 7) (affedit--list)) (not (member '(1 0 3) (affedit--list)))))
      (kill-buffer))
    (write-choice "affedit-dictionary: \"none\"")
    (setq told nil)
    (let* ((hooked nil) (text-mode-hook (list #'affedit-mode (lambda () (setq hooked t)))))
      (with-current-buffer (find-file-noselect (concat work "/file.txt"))
        (expect "a dictionary that is not there is told, and the mode is off"
                (and told (string-match-p "No dictionary none" (car told)) (not affedit-mode) hooked) told)
        (kill-buffer))))
  (dolist (name '("de_DE_frami" "en_GB-ize" "sr@latin"))
    (expect "a name is safe" (safe-local-variable-p 'affedit-dictionary name) name))
  (dolist (name '("/tmp/x" "../x" "~root" "a b" "" 5 "x\ny" "host:x"))
    (expect "anything else is not" (not (safe-local-variable-p 'affedit-dictionary name)) name))
  (expect "scopes are safe, and nothing else is" (and (safe-local-variable-p 'affedit-scope 'all) (not (safe-local-variable-p 'affedit-scope "all")))))

(defun add (word)
  "Add WORD, and wait until it is known."
  (affedit-add word)
  (expect "the word is taken" (wait #'affedit--idle-p) word))

(defun forget-here (word)
  "Take the item back that is proposed at WORD, and return it."
  (goto-char (point-min))
  (search-forward word)
  (goto-char (1+ (match-beginning 0)))
  (let (proposed)
    (cl-letf (((symbol-function 'completing-read)
               (lambda (_prompt items &rest rest) (setq proposed (nth 4 rest)) (and (member proposed items) proposed))))
      (call-interactively #'affedit-forget))
    proposed))

(defun try-lists ()
  "Each dictionary has its list, and a word that is taken back is marked again."
  (make-dictionaries)
  (with-buffers (first second)
    (dolist (buffer (list first second))
      (with-current-buffer buffer
        (insert "cat dog both bird don't é/x")
        (affedit-mode 1)))
    (with-current-buffer second (affedit-change-dictionary "two") (wait #'affedit--idle-p))
    (with-current-buffer first
      (add "bird")
      (marked "a word of the first list" '("dog" "don't" "é" "x")))
    (with-current-buffer second
      (marked "is not one of the second" '("cat" "bird" "don't" "é" "x"))
      (add "cat")
      (marked "a word of the second list" '("bird" "don't" "é" "x")))
    (expect "the lists" (equal '("bird\n" "cat\n") (mapcar #'read-file (list (list-of "one") (list-of "two")))))
    (with-current-buffer first
      (add "dog")
      (add "é")
      (add "*both")
      (marked "a list of four" '("both" "don't" "x"))
      (expect "the word at point" (equal "é" (forget-here "é")))
      (marked "is marked again" '("both" "don't" "é" "x"))
      (expect-marks "and drawn" '((1 8 12) (1 18 23) (1 24 26) (1 27 28)))
      (expect "a word that is prohibited, at point" (equal "*both" (forget-here "both")))
      (marked "is not marked any more" '("don't" "é" "x"))
      (expect "a word that is not in the list is refused"
              (condition-case nil (progn (affedit-forget "cat") nil) (user-error t)))
      (expect "as is none" (condition-case nil (progn (affedit-forget "") nil) (user-error t)))
      (expect "no item is proposed at another word" (condition-case nil (progn (forget-here "don't") nil) (error t)))
      (expect "the list has the others" (equal "bird\ndog\n" (read-file (list-of "one"))) (read-file (list-of "one"))))
    (with-current-buffer second
      (marked "the second list stays" '("bird" "don't" "é" "x")))))

(defun try-waiting-words ()
  "A word that waits to be kept may be taken back, and is kept though its buffer goes."
  (make-dictionaries)
  (write (list-of "one") "bird\ndog\n")
  (with-buffers (first second)
    (with-current-buffer second (setq-local affedit-dictionary "two") (affedit-mode 1))
    (with-current-buffer first
      (insert "don dog bird")
      (affedit-mode 1)
      (affedit-add "don")
      (affedit-forget "don")
      (marked "a word that was not yet kept" '("don"))
      (expect "is in no file" (equal "bird\ndog\n" (read-file (list-of "one"))))
      (affedit-add "don")
      (kill-buffer))
    (expect "a word that is added as its buffer goes is kept"
            (wait (lambda () (equal "bird\ndog\ndon\n" (read-file (list-of "one"))))) (read-file (list-of "one")))
    (expect "and the process ends then" (wait (lambda () (= 1 (program-processes)))))))

(defun try-shared-lists ()
  "A list for all dictionaries: that of before, which each list begins with, and that of `affedit-own'."
  (make-dictionaries)
  (let ((shared (concat work "/data/affedit/words")))
    (mapc (lambda (name) (when (file-exists-p (list-of name)) (delete-file (list-of name)))) '("one" "two"))
    (write shared "bird\nfish")
    (with-buffers (first)
      (with-current-buffer first
        (insert "cat bird fish fly")
        (affedit-mode 1)
        (marked "the words of before are known" '("fly"))
        (add "fly")
        (affedit-forget "bird")
        (marked "and may be taken back" '("bird"))
        (affedit-change-dictionary "two")
        (marked "each dictionary begins with them" '("cat" "fly"))))
    (expect "the list of before stays as it is" (equal "bird\nfish" (read-file shared)))
    (expect "the list of one" (equal "fish\nfly\n" (read-file (list-of "one"))) (read-file (list-of "one")))
    (expect "the list of the other" (equal "bird\nfish" (read-file (list-of "two"))))
    (expect "no other file is left"
            (equal '("words" "words.one" "words.two") (directory-files (concat work "/data/affedit") nil "words\\($\\|\\.one\\|\\.two\\)"))))
  (let ((affedit-own (concat work "/all")))
    (with-buffers (first second)
      (with-current-buffer first (insert "cat bird") (affedit-mode 1))
      (with-current-buffer second (insert "dog bird") (setq-local affedit-dictionary "two") (affedit-mode 1))
      ;; Both processes have read the list.
      (dolist (buffer (list first second))
        (with-current-buffer buffer (marked "an empty list for all" '("bird"))))
      (with-current-buffer first (add "bird") (marked "a list for all" nil))
      (with-current-buffer second (marked "in another dictionary" nil) (affedit-forget "bird") (marked "taken back" '("bird")))
      (with-current-buffer first (marked "taken back in the first" '("bird"))))
    (expect "the list for all is empty" (equal "" (read-file affedit-own)))))

(defun try-items ()
  "Lines of a list, and which of them stands at point."
  (let ((list (concat work "/items")))
    (write list "cat\r\n  dog \n\nca\ncat/dog\ncat\n*fox/x\na\\/b\nwithout end")
    (expect "the items" (equal '("cat" "dog" "ca" "cat/dog" "*fox/x" "a\\/b" "without end") (affedit--items list)) (affedit--items list))
    (expect "their words" (equal '("cat" "dog" "ca" "cat" "fox" "a/b" "without end") (mapcar #'affedit--item-word (affedit--items list))))
    (expect "a word that is not there" (not (affedit--remove-item list "CAT")))
    (expect "it is removed" (affedit--remove-item list "cat"))
    (expect "everywhere, and nothing else" (equal "  dog \n\nca\ncat/dog\n*fox/x\na\\/b\nwithout end" (read-file list)) (read-file list))
    (expect "in the middle" (affedit--remove-item list "dog"))
    (expect "at the end" (affedit--remove-item list "without end"))
    (expect "signs of a pattern" (and (affedit--remove-item list "*fox/x") (affedit--remove-item list "a\\/b")))
    (expect "the others stay" (equal "\nca\ncat/dog\n" (read-file list)) (read-file list))
    (make-symbolic-link list (concat work "/link") t)
    (set-file-modes list #o640)
    (expect "by a link" (affedit--remove-item (concat work "/link") "ca"))
    (expect "the link and the modes stay" (and (file-symlink-p (concat work "/link")) (= #o640 (file-modes list))
                                               (equal "\ncat/dog\n" (read-file list)))))
  (with-temp-buffer
    (insert "catalog x-ray don't Fox U.S.A. usw.")
    (dolist (case '((2 ("cat" "catalog") "catalog") (2 ("cat") nil) (10 ("ray" "x-ray") "x-ray") (17 ("don't" "don") "don't")
                    (20 ("don't") "don't") (21 ("fox") "fox") (22 ("fox" "*Fox/x") "*Fox/x") (28 ("U.S.A") "U.S.A") (34 ("usw") "usw")
                    (36 ("usw.") "usw.") (21 ("bird") nil) (2 nil nil)))
      (goto-char (car case))
      (expect "the item at point" (equal (nth 2 case) (affedit--item-here (nth 1 case))) (list case (affedit--item-here (nth 1 case)))))))

;; Random edits beside `check', by real dictionaries.

(defvar vocabulary
  '(("en_US" "the" "house" "isn't" "reader's" "running" "cities" "wrold" "citys" "2nd" "11st" "don’t" "Paris" "naïve" "x" "teh")
    ("de_DE_frami" "das" "Haus" "Häuser" "Straße" "Donaudampfschifffahrt" "schön" "z.B." "usw." "Hudn" "läuft" "Tischplate" "GROẞ" "x-mal")
    ("hu_HU" "ház" "házak" "kutyáinkkal" "szép" "gyönyörű" "hzá" "legszebb" "megmagyarázhatatlan" "nem" "autóbusszz" "ötvenkettő" "-e"))
  "Words of each dictionary, right ones and wrong ones.")

(defun some-words (count)
  "COUNT words of the buffer's dictionary, and some signs."
  (let ((words (cdr (assoc affedit-dictionary vocabulary))))
    (mapconcat (lambda (_) (if (= 0 (random 12))
                               (nth (random 6) '("слово" "“x”" "\t" "…" "xx-yy/zz" "東京"))
                             (nth (random (length words)) words)))
               (number-sequence 1 count) " ")))

(defun some-lines (count)
  "COUNT lines of the buffer's dictionary."
  (mapconcat (lambda (_) (some-words (random 8))) (number-sequence 1 count) "\n"))

(defun somewhere ()
  "Go to any place of the buffer."
  (goto-char (+ (point-min) (random (1+ (buffer-size))))))

(defun add-some-mark ()
  "Add a marked word, at random prohibit a word or add one by a model."
  (let* ((marks (affedit--list)) (mark (nth (random (max 1 (length marks))) marks))
         (words (cdr (assoc affedit-dictionary vocabulary))) (word (nth (random (length words)) words)))
    (when mark
      (goto-char (point-min))
      (forward-line (1- (car mark)))
      (let ((marked (buffer-substring-no-properties (affedit--place (point) (nth 1 mark)) (affedit--place (point) (nth 2 mark)))))
        (affedit-add (pcase (random 4)
                       (0 (concat "*" word))
                       (1 (concat marked "/" word))
                       (_ marked)))))))

(defun take-some-back ()
  "Take any item of the list back."
  (let ((items (affedit--items (affedit--speller-own affedit--speller))))
    (when items
      (affedit-forget (nth (random (length items)) items)))))

(defvar edits
  '((lambda () (somewhere) (insert (some-words 2)))
    (lambda () (somewhere) (insert "x"))
    (lambda () (somewhere) (delete-char 1))
    (lambda () (somewhere) (kill-word 1))
    (lambda () (somewhere) (kill-line 1))
    (lambda () (somewhere) (yank))
    (lambda () (somewhere) (newline))
    (lambda () (somewhere) (insert "\n" (some-lines 6) "\n"))
    (lambda () (somewhere) (transpose-words 1))
    (lambda () (somewhere) (transpose-lines 1))
    (lambda () (somewhere) (upcase-word 2))
    (lambda () (somewhere) (delete-region (point) (min (point-max) (+ (point) (random 200)))))
    (lambda () (undo-boundary) (setq last-command nil) (undo (1+ (random 3))))
    (lambda () (somewhere) (fill-paragraph))
    add-some-mark add-some-mark add-some-mark take-some-back take-some-back)
  "What is done to a buffer, each as likely as any other.")

(defun checked ()
  "The marks that `check' has of the buffer saved, each (LINE START STOP), without the dots at their ends."
  (write (concat work "/text") (concat (buffer-string) "\n"))
  (let* ((speller affedit--speller) (pair (affedit--speller-pair speller)) (own (affedit--speller-own speller)) marks)
    (with-temp-buffer
      (let ((status (call-process affedit-program nil t nil "check" (concat pair ".aff") (concat pair ".dic") (concat work "/text")
                                  "--own" own)))
        (expect "check looks at the text" (memq status '(0 1)) (buffer-string)))
      (goto-char (point-min))
      (while (looking-at "\\([0-9]+\\) \\([0-9]+\\) \\([0-9]+\\) .*?\\(\\.*\\)$")
        (push (mapcar (lambda (group) (string-to-number (match-string group))) '(1 2 3)) marks)
        (cl-decf (nth 2 (car marks)) (length (match-string 4)))
        (forward-line 1))
      (expect "check ends with its sum" (looking-at (format "%d of [0-9]+$" (length marks))) (buffer-string)))
    (nreverse marks)))

(defun try-edits ()
  "After each pause in many edits the marks of a buffer are those of `check'."
  (let* ((names (split-string (getenv "DICTIONARIES"))) (left (string-to-number (getenv "EDITS"))) (done 0) (added 0) (back 0)
         (count (lambda (&rest _) (setq added (1+ added)))) (uncount (lambda (&rest _) (setq back (1+ back))))
         (buffers (mapcar (lambda (name) (generate-new-buffer name)) names)))
    (random (concat "edits" (getenv "SEED")))
    (setq-default affedit-scope 'all)
    (advice-add 'affedit--append-item :after count)
    (advice-add 'affedit--take-back :after uncount)
    (dolist (buffer buffers)
      (with-current-buffer buffer
        (setq-local affedit-dictionary (buffer-name))
        (buffer-enable-undo)
        (insert (some-lines 30))
        (affedit-mode 1)))
    (while (and buffers (> left 0))
      (with-current-buffer (nth (random (length buffers)) buffers)
        (dotimes (_ (min left (1+ (random 6))))
          (undo-boundary)
          (let ((edit (nth (random (length edits)) edits)))
            ;; A command of Emacs may find nothing to do; those of the mode do not fail.
            (if (symbolp edit)
                (funcall edit)
              (ignore-errors (funcall edit))))
          (setq left (1- left) done (1+ done)))
        (when (< (buffer-size) 200)
          (insert (some-lines 20)))
        (wait #'affedit--idle-p)
        (expect-marks (format "%s after %d edits, seed %s" (buffer-name) done (getenv "SEED")) (checked))))
    (dolist (buffer buffers)
      (with-current-buffer buffer
        (expect-marks (format "%s after all edits" (buffer-name)) (checked))
        (expect "some words are marked" (affedit--list))
        (set-buffer-modified-p nil)
        (kill-buffer)))
    (advice-remove 'affedit--append-item count)
    (advice-remove 'affedit--take-back uncount)
    (setq-default affedit-scope 'prose)
    (expect "words were added, and taken back" (or (null buffers) (and (> added 10) (> back 5))) (list added back))
    (expect "no process is left" (wait (lambda () (= 0 (program-processes)))) (process-list))))

(defun run ()
  "Run all tests, or that which ONLY of the environment names."
  (mapc #'funcall (if (getenv "ONLY")
                      (list (intern (getenv "ONLY")))
                    '(try-scopes try-processes try-clones try-changes try-files try-lists try-waiting-words try-shared-lists try-items try-edits))))

(condition-case fault
    (run)
  ((error quit) (expect "no error" nil fault)))
(princ (format "GNU Emacs %s in batch mode: %d compared, %d failures\n" emacs-version compared failures))
(let ((kill-emacs-hook nil))
  (kill-emacs (if (= 0 failures) 0 1)))
