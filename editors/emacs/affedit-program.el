;;; affedit-program.el --- The dialogue with the process `affedit edit'  -*- lexical-binding: t -*-

;;; Commentary:

;; One process `affedit edit AFF DIC --own OWN' for each dictionary in use, and what it said of each line (docs/CONSOLE.md).
;; Between requests its text has no paragraphs: a request inserts its lines, has them checked and shown, and deletes them.
;; An answer to a line is a list of marks (START . STOP), in bytes of the line, or a string that says why it is not checked.

;;; Code:

(require 'cl-lib)
(require 'affedit-files)

(defvar affedit-program)

(defconst affedit--paragraph-bytes 65536 "A paragraph has at most so many bytes.")
(defvar affedit--most-sent 4000000000
  "The program reads at most 4,294,967,295 bytes in a run; before that another process takes its place.")
(defconst affedit--most-ends 3 "A process that ends so often in `affedit--ends-seconds' is not started again.")
(defvar affedit--ends-seconds 10)

(defvar affedit--silence 60
  "A process that owes an answer and writes nothing for so many seconds is killed.")

(defvar affedit--changed-function #'ignore "Called with a speller when all that it knew is void.")
(defvar affedit--most 200000 "A speller knows at least so many texts that were asked about last.")

(cl-defstruct affedit--speller
  "A dictionary with its personal list, and the process that checks by them."
  pair          ; the stem of the two files of the dictionary
  own           ; the file of the personal list
  process
  failed        ; why there are no marks, where something has to be mended first
  ends          ; when processes ended
  pending       ; personal words that are not answered yet
  (trials 0)    ; how many commands wait to see whether the dictionary is read
  buffers       ; those that are checked by it
  (asked (make-hash-table :test #'equal)) ; the texts that are asked about now, or next
  wanted        ; those that are to be asked next
  asking        ; whether lines that changed, or are visible, are asked about
  scanning      ; whether a batch is asked about, or is to be
  (young (make-hash-table :test #'equal)) ; what is known of a text
  (old (make-hash-table :test #'equal)))

(defvar affedit--spellers nil "Those in use.")

(defun affedit--speller-for (pair)
  "The speller of the dictionary PAIR and its personal list."
  (let ((own (affedit--own-file pair)))
    (or (cl-find-if (lambda (speller)
                      (and (equal pair (affedit--speller-pair speller)) (equal own (affedit--speller-own speller))))
                    affedit--spellers)
        (car (push (make-affedit--speller :pair pair :own own) affedit--spellers)))))

;; What is known of a text. A mark depends on nothing but the text of its line and the dictionary, so this stays right
;; whatever is inserted, sorted or undone. Where the young half is full it becomes the old one, and what was in that is forgotten.

(defun affedit--remember (speller text answer)
  "Keep ANSWER of SPELLER to TEXT."
  (when (>= (hash-table-count (affedit--speller-young speller)) affedit--most)
    (setf (affedit--speller-old speller) (affedit--speller-young speller)
          (affedit--speller-young speller) (make-hash-table :test #'equal)))
  (puthash text answer (affedit--speller-young speller)))

(defun affedit--recall (speller text)
  "The answer of SPELLER to TEXT, or `unknown'."
  (let ((answer (gethash text (affedit--speller-young speller) 'unknown)))
    (when (eq answer 'unknown)
      (setq answer (gethash text (affedit--speller-old speller) 'unknown))
      (unless (eq answer 'unknown)
        (affedit--remember speller text answer)))
    answer))

(defun affedit--forget-answers (speller)
  "Another list: of SPELLER nothing is known any more."
  (setf (affedit--speller-young speller) (make-hash-table :test #'equal)
        (affedit--speller-old speller) (make-hash-table :test #'equal)))

;; Requests.

(cl-defstruct affedit--request
  done        ; gets the answer, or nil where the process ended
  answers     ; a vector with the answer to each text, or nil where the request is one command
  owners      ; of each paragraph, the index of its text
  offsets     ; of each paragraph, the byte of the text that it starts at
  stands      ; the paragraphs that were not refused, the last one first
  (at 0)      ; how many insertions are answered
  (left 0)    ; how many are not
  (skip 0)    ; how many deletions are not
  complete)

(defun affedit--tell (format &rest arguments)
  "Tell the user FORMAT with ARGUMENTS."
  (message "affedit: %s" (apply #'format format arguments)))

(defun affedit--cuts (bytes)
  "The places at which BYTES, a unibyte string, is cut: behind spaces and tabs.
Nil where it cannot be cut."
  (let ((from 0) (starts (list 0)) (whole t))
    (while (and whole (> (- (length bytes) from) affedit--paragraph-bytes))
      (let ((at (+ from affedit--paragraph-bytes)))
        (while (and (> at from) (not (memq (aref bytes (1- at)) '(?\s ?\t))))
          (setq at (1- at)))
        (if (= at from)
            (setq whole nil)
          (setq from at)
          (push at starts))))
    (and whole (nreverse starts))))

(defun affedit--enqueue (speller request message)
  "Send MESSAGE to the process of SPELLER, and have REQUEST answered in its turn."
  (let ((process (affedit--speller-process speller)))
    (unless (process-get process 'last)
      (affedit--start-watch process))
    (process-put process 'last (nconc (process-get process 'last) (list request)))
    (process-put process 'sent (+ (process-get process 'sent) (string-bytes message)))
    (condition-case nil
        (process-send-string process message)
      ;; The sentinel tells of a process that is gone.  One that is there, as it is stopped, would take the next request for this one.
      (error (when (process-live-p process)
               (process-put process 'told "it was not asked, as Emacs cannot write to it")
               (kill-process process))))))

(defun affedit--command (speller line done)
  "Send to SPELLER one command LINE that has one line of answer, which DONE gets."
  (affedit--enqueue speller (make-affedit--request :done done) (concat line "\n")))

(defun affedit--send-texts (speller texts done)
  "Have TEXTS checked by SPELLER: DONE gets a vector of answers, or nil where the process ended."
  (let ((answers (make-vector (length texts) nil))
        (index 0) owners offsets parts)
    (dolist (text texts)
      (if (<= (string-bytes text) affedit--paragraph-bytes)
          (progn (push text parts) (push index owners) (push 0 offsets))
        (let* ((bytes (encode-coding-string text 'utf-8-emacs-unix t))
               (starts (affedit--cuts bytes)))
          (unless starts
            (aset answers index "TooLong"))
          (while starts
            (push (substring bytes (car starts) (cadr starts)) parts)
            (push index owners)
            (push (car starts) offsets)
            (setq starts (cdr starts)))))
      (setq index (1+ index)))
    (let ((count (length parts)) (lines (list "settle\nshow\n")))
      (dotimes (_ count)
        (push "del 1\n" (cdr lines)))
      (dolist (part parts)
        (setq lines (cons "ins 1 " (cons part (cons "\n" lines)))))
      (affedit--enqueue
       speller
       (make-affedit--request :done done :answers answers :left count :skip count
                              :owners (vconcat (nreverse owners)) :offsets (vconcat (nreverse offsets)))
       (apply #'concat lines)))))

;; Answers.

(defun affedit--inserted (request)
  "The answer at point is to an insertion of REQUEST: a line that is refused stands nowhere."
  (let ((at (affedit--request-at request)))
    (cl-incf (affedit--request-at request))
    (cl-decf (affedit--request-left request))
    (if (eq (char-after) ?o)
        (push at (affedit--request-stands request))
      (aset (affedit--request-answers request) (aref (affedit--request-owners request) at)
            (if (looking-at "no \\([A-Za-z]+\\)") (match-string 1) "refused")))))

(defun affedit--dots ()
  "How many dots are at the end of the line at point."
  (save-excursion
    (end-of-line)
    (- (skip-chars-backward "."))))

(defun affedit--marked (request)
  "The line at point is a mark P S E WORD of REQUEST.
Each line was inserted before those that stood, so P is the P-th of them from the last.
A WORD with dots at its end would be accepted if it were without them, so they are left to the sentence: the mark ends before them."
  (let* ((paragraph (read (current-buffer)))
         (start (read (current-buffer)))
         (stop (- (read (current-buffer)) (affedit--dots)))
         (stands (affedit--request-stands request)))
    (unless (vectorp stands)
      (setq stands (setf (affedit--request-stands request) (vconcat stands))))
    (let* ((at (aref stands (1- paragraph)))
           (owner (aref (affedit--request-owners request) at))
           (offset (aref (affedit--request-offsets request) at))
           (answers (affedit--request-answers request)))
      (when (listp (aref answers owner))
        (push (cons (+ offset start) (+ offset stop)) (aref answers owner))))))

(defun affedit--in-order (answers)
  "Put the marks of each of ANSWERS in order: they were pushed, and pieces of a line are shown the last one first."
  (dotimes (index (length answers))
    (let ((answer (aref answers index)))
      (when (consp answer)
        (setq answer (nreverse answer))
        (aset answers index
              (if (cl-loop for (one two) on answer always (or (null two) (< (car one) (car two))))
                  answer
                (sort answer (lambda (one two) (< (car one) (car two))))))))))

(defun affedit--drop (process)
  "The first request of PROCESS has had all its answers."
  (process-put process 'last (cdr (process-get process 'last)))
  (unless (process-get process 'last)
    (affedit--stop-watch process)))

(defun affedit--line (process end)
  "Take the line at point, up to END, of what PROCESS writes.
Returns a request and its result, where it is complete."
  (let ((request (car (process-get process 'last)))
        (char (char-after)))
    (cond
     ((not (and request (or (and char (<= ?0 char ?9)) (looking-at "ok \\|no \\|dict \\|text \\|\\.$"))))
      (process-put process 'told (buffer-substring (point) end))
      nil)
     ((affedit--request-complete request)
      (when (= 0 (cl-decf (affedit--request-skip request)))
        (affedit--drop process))
      nil)
     ((not (affedit--request-answers request))
      (cons request (buffer-substring (point) end)))
     ((> (affedit--request-left request) 0)
      (affedit--inserted request)
      nil)
     ((<= ?0 char ?9)
      (affedit--marked request)
      nil)
     ((eq char ?.)
      (affedit--in-order (affedit--request-answers request))
      (cons request (affedit--request-answers request))))))

(defun affedit--filter (process output)
  "Take OUTPUT of PROCESS."
  (process-put process 'heard (float-time))
  (when (buffer-live-p (process-buffer process))
    (let (results)
      (with-current-buffer (process-buffer process)
        (goto-char (point-max))
        (insert output)
        (goto-char (point-min))
        (let (end)
          (while (setq end (save-excursion (and (search-forward "\n" nil t) (1- (point)))))
            (let ((result (affedit--line process end)))
              (when result
                (setf (affedit--request-complete (car result)) t)
                (when (= 0 (affedit--request-skip (car result)))
                  (affedit--drop process))
                (push result results)))
            (goto-char (1+ end))))
        (delete-region (point-min) (point)))
      (dolist (result (nreverse results))
        (process-put process 'answered (1+ (process-get process 'answered)))
        (with-demoted-errors "affedit: %S"
          (funcall (affedit--request-done (car result)) (cdr result)))))))

(defun affedit--cause (speller last)
  "What LAST, the line that a process of SPELLER ended with, says of a file."
  (if (and last (string-match "\\`\\(aff\\|dic\\|own\\) \\([0-9]+\\) \\([A-Za-z]+\\)\\'" last))
      (let ((file (match-string 1 last)) (line (match-string 2 last)) (why (match-string 3 last)))
        (format "%s:%s: %s%s" (if (equal file "own")
                                     (affedit--speller-own speller)
                                   (concat (affedit--speller-pair speller) "." file))
                line why
                (if (equal why "OtherEncoding")
                    "; affedit-prepare-dictionary (in a checkout tools/prepare-dictionary) makes one that is read"
                  "")))
    last))

(defun affedit--fail (process)
  "Tell every request of PROCESS that it gets no answer."
  (let ((requests (process-get process 'last)))
    (process-put process 'last nil)
    (affedit--stop-watch process)
    (dolist (request requests)
      (unless (affedit--request-complete request)
        (funcall (affedit--request-done request) nil)))))

(defun affedit--tell-of-end (speller process)
  "Tell of the end of PROCESS, and note that SPELLER failed where another one would end too."
  (push (float-time) (affedit--speller-ends speller))
  (let* ((code (process-exit-status process))
         (killed (eq (process-status process) 'signal))
         (cause (affedit--cause speller (process-get process 'told)))
         (how (format "the program of %s ended %s %d%s" (file-name-nondirectory (affedit--speller-pair speller))
                      (if killed "by signal" "with status") code (if cause (concat ": " cause) "")))
         (ends (affedit--speller-ends speller))
         (earlier (nth (1- affedit--most-ends) ends))
         (trial (affedit--tried-p speller)))
    (if (or trial
            (and earlier (< (- (car ends) earlier) affedit--ends-seconds))
            (and (= 0 (process-get process 'answered)) (not killed)))
        (progn
          (setf (affedit--speller-failed speller)
                (concat how (if (= code 125) "; run the launcher `affedit' once in a shell, which builds it" "")))
          (unless trial
            (affedit--tell "%s; there are no marks until M-x affedit-restart" (affedit--speller-failed speller))))
      (affedit--tell "%s; it is started again" how))))

(defun affedit--sentinel (process _event)
  "PROCESS has changed: tell of its end, and have it started again where that helps."
  (unless (process-live-p process)
    (when (buffer-live-p (process-buffer process))
      (kill-buffer (process-buffer process)))
    (let* ((speller (process-get process 'speller))
           (is-current (eq process (affedit--speller-process speller))))
      (when is-current
        (setf (affedit--speller-process speller) nil)
        (affedit--tell-of-end speller process)
        ;; The personal list may have been changed beside it.
        (affedit--forget-answers speller))
      (affedit--fail process)
      (when is-current
        (affedit--changed speller)))))

(defun affedit--changed (speller)
  "All that SPELLER knew is void; words that wait to be kept are sent again."
  (funcall affedit--changed-function speller)
  (when (affedit--speller-pending speller)
    (affedit--running speller)))

(defun affedit--start-watch (process)
  "From here on PROCESS owes an answer."
  (let ((every (/ affedit--silence 4.0)) (now (float-time)))
    (process-put process 'heard now)
    (process-put process 'looked now)
    (process-put process 'watch (run-with-timer every every #'affedit--watch process affedit--silence))))

(defun affedit--stop-watch (process)
  "PROCESS owes no answer."
  (let ((timer (process-get process 'watch)))
    (when timer
      (cancel-timer timer)
      (process-put process 'watch nil))))

(defun affedit--watch (process silence)
  "Kill PROCESS, and what it started, where it has written nothing for SILENCE seconds.
Time in which Emacs itself stood still does not count, nor does what waits to be read."
  (let ((now (float-time)))
    (when (> (- now (process-get process 'looked)) (/ silence 2.0))
      (process-put process 'heard now))
    (process-put process 'looked now)
    (when (and (> (- now (process-get process 'heard)) silence)
               (not (accept-process-output process 0 nil t))
               (process-live-p process))
      (process-put process 'told (format "no answer for %s seconds" silence))
      (affedit--stop-watch process)
      (kill-process process))))

(defun affedit--make-process (speller)
  "Make the process of SPELLER, which has asked about nothing."
  (let* ((process-connection-type nil)
         (process-adaptive-read-buffering nil)
         (default-directory "/")
         (process-environment (append '("AFFEDIT_NO_BUILD=1" "AFFEDIT_QUIET=1") process-environment))
         (pair (affedit--speller-pair speller))
         (buffer (generate-new-buffer " *affedit*")))
    (with-current-buffer buffer
      (set-buffer-multibyte nil)
      (buffer-disable-undo))
    (let ((process (make-process :name "affedit" :buffer buffer :noquery t :coding '(binary . utf-8-emacs-unix)
                                 :filter #'affedit--filter :sentinel #'affedit--sentinel
                                 :command (list affedit-program "edit" (concat pair ".aff") (concat pair ".dic")
                                                "--own" (affedit--speller-own speller)))))
      (process-put process 'speller speller)
      (process-put process 'sent 0)
      (process-put process 'answered 0)
      process)))

(defun affedit--start (speller)
  "Start the process of SPELLER, or note why not."
  (condition-case fault
      (progn
        (unless (executable-find affedit-program)
          (error "No program %s" affedit-program))
        (affedit--begin-list (affedit--speller-own speller))
        (setf (affedit--speller-process speller) (affedit--make-process speller))
        (dolist (item (affedit--speller-pending speller))
          (affedit--send-own speller item)))
    (error
     (setf (affedit--speller-failed speller) (error-message-string fault))
     (unless (affedit--tried-p speller)
       (affedit--tell "%s" (affedit--speller-failed speller))))))

(defun affedit--running (speller)
  "The process of SPELLER, or nil where there is none and none is to be started."
  (let ((process (affedit--speller-process speller)))
    (when (and process
               (> (process-get process 'sent) affedit--most-sent)
               (null (process-get process 'last)))
      (affedit--end speller)))
  (unless (or (affedit--speller-process speller) (affedit--speller-failed speller))
    (affedit--start speller))
  (affedit--speller-process speller))

(defun affedit--end (speller &optional now)
  "Have the process of SPELLER end; what it owes does not count.
One that owes something, or is to end NOW, may hang, so it is not asked to quit."
  (let ((process (affedit--speller-process speller)))
    (when process
      (setf (affedit--speller-process speller) nil)
      (cond
       ((or now (process-get process 'last))
        (affedit--put-down process)
        (affedit--fail process))
       (t
        (ignore-errors (process-send-string process "quit\n"))
        (run-with-timer affedit--silence nil #'affedit--put-down process))))))

(defun affedit--put-down (process)
  "Kill PROCESS where it lives."
  (when (process-live-p process)
    (kill-process process)))

(defun affedit--release (speller)
  "End the process of SPELLER where no buffer uses it, and no word waits to be kept."
  (unless (or (affedit--speller-buffers speller) (affedit--speller-pending speller) (affedit--tried-p speller))
    (setq affedit--spellers (delq speller affedit--spellers))
    (affedit--end speller)))

(defun affedit--ask (speller texts done)
  "Have TEXTS checked by SPELLER, and DONE called with the answers, or with nil."
  (if (affedit--running speller)
      (affedit--send-texts speller texts done)
    (funcall done nil)))

(defun affedit--tried-p (speller)
  "Whether it is tried if the dictionary of SPELLER is read."
  (> (affedit--speller-trials speller) 0))

(defun affedit--try (speller done)
  "Have the dictionary of SPELLER read.
Call DONE with nil then, or with the reason why it is not."
  (if (and (affedit--speller-buffers speller) (not (affedit--speller-failed speller)))
      (funcall done nil)
    (setf (affedit--speller-failed speller) nil)
    (cl-incf (affedit--speller-trials speller))
    (let ((tried (lambda (answer)
                   (let ((fault (and (not answer) (or (affedit--speller-failed speller) "the program ended"))))
                     (cl-decf (affedit--speller-trials speller))
                     (funcall done fault)
                     (affedit--release speller)))))
      (if (affedit--running speller)
          (affedit--command speller "settle" tried)
        (funcall tried nil)))))

;; Words.

(defun affedit--others (speller)
  "The other spellers that have the personal list of SPELLER."
  (cl-loop for other in affedit--spellers
           when (and (not (eq other speller)) (equal (affedit--speller-own speller) (affedit--speller-own other)))
           collect other))

(defun affedit--keep (speller word)
  "Keep WORD, which SPELLER has taken, in the personal list."
  (condition-case fault
      (progn (affedit--append-item (affedit--speller-own speller) word)
             (mapc #'affedit--restart (affedit--others speller)))
    (error (affedit--tell "the word is known until Emacs ends, but not kept: %s" (error-message-string fault))))
  (affedit--forget-answers speller)
  (affedit--changed speller))

(defun affedit--send-own (speller item)
  "Have SPELLER take the personal word of ITEM, a list of one line, and keep it in the file."
  (affedit--command
   speller
   (concat "own " (car item))
   (lambda (answer)
     (when answer
       (setf (affedit--speller-pending speller) (delq item (affedit--speller-pending speller)))
       (if (string-prefix-p "dict " answer)
           (affedit--keep speller (car item))
         (affedit--tell "`%s' is not taken: %s" (car item) answer))
       (affedit--release speller)))))

(defun affedit--add (speller line)
  "Add LINE to the personal list of SPELLER."
  (let ((item (list (replace-regexp-in-string "[\r\n]" " " line))))
    (if (not (affedit--running speller))
        (affedit--tell "the word is not taken, since there is no program: %s" (affedit--speller-failed speller))
      (setf (affedit--speller-pending speller) (append (affedit--speller-pending speller) (list item)))
      (affedit--send-own speller item))))

(defun affedit--restart (speller)
  "End the process of SPELLER, and forget what failed."
  (setf (affedit--speller-failed speller) nil (affedit--speller-ends speller) nil)
  (affedit--forget-answers speller)
  (affedit--end speller 'now)
  (affedit--changed speller))

(defun affedit--take-back (speller item)
  "Remove ITEM from the personal list of SPELLER.
The program cannot forget a word, so that each process with the list is started again."
  (let ((own (affedit--speller-own speller)) (all (cons speller (affedit--others speller))) waited)
    (dolist (one all)
      (let ((pending (affedit--speller-pending one)))
        (setf (affedit--speller-pending one) (cl-remove item pending :key #'car :test #'equal))
        (setq waited (or waited (not (equal pending (affedit--speller-pending one)))))))
    (unless (or (affedit--remove-item own item) waited)
      (user-error "`%s' is not in %s" item own))
    (mapc #'affedit--restart all)))

(provide 'affedit-program)

;; Local Variables:
;; byte-compile-docstring-max-column: 160
;; End:

;;; affedit-program.el ends here
