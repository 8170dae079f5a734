;;; affedit-scope.el --- Which marks of a buffer are shown  -*- lexical-binding: t -*-

;;; Commentary:

;; With the scope `prose' there are no marks in web addresses, paths and e-mail addresses.  The rule is that of `affedit-check', in
;; tools/check_command/prose.py.  Places are bytes of the line, as in marks: a line is looked at as a unibyte string.
;; In code only comments and strings are marked, and a mode's own predicate for flyspell is heeded.

;;; Code:

(require 'cl-lib)

(defcustom affedit-scope 'prose
  "Which marks are shown.
With `prose' those in addresses, paths and e-mail addresses are left out.
In a programming mode those outside of comments and strings are too, and where
the major mode has a predicate for flyspell, those that it refuses.
With `all' all marks are shown."
  :group 'affedit
  :type '(choice (const prose) (const all)))
;;;###autoload
(put 'affedit-scope 'permanent-local t)
;;;###autoload
(put 'affedit-scope 'safe-local-variable (lambda (scope) (memq scope '(prose all))))

(defvar-local affedit--predicate nil "Whether a word that ends at point is to be marked, by the major mode; nil if all are.")

;; Addresses.

(defconst affedit--address-sign "[/@\\]\\|www\\."
  "What a line has that has an address, a path or an e-mail address.")
(defconst affedit--chunk "[^ \t\n\v\f\r<>\"]+" "A run without blanks.")
(defconst affedit--piece "[^][(){}|,;`]+" "A part of a run that may be a path.")
(defconst affedit--behind-signs "[^'\"*_([]\\|\\'" "Where the signs end that stand before an address.")
(defconst affedit--after-address (append ".,:;!?]}'\"*_`" nil) "The signs behind a web address that are none of it.")
(defconst affedit--after-path (cons ?\) affedit--after-address) "The signs behind any other address that are none of it.")
(defconst affedit--scheme-signs (append "abcdefghijklmnopqrstuvwxyzABCDEFGHIJKLMNOPQRSTUVWXYZ0123456789+.-" nil)
  "The signs of what stands before `://'.")
(defconst affedit--root
  "\\`\\(?:\\(?:~[A-Za-z0-9_-]*\\|\\.\\.?\\|\\$[A-Z_]+\\)?/\\|[A-Za-z]:[/\\]\\|\\\\\\\\\\)"
  "How a path begins that needs no extension.")
(defconst affedit--extension "\\.[A-Za-z][A-Za-z0-9]\\{0,9\\}\\(?::[0-9]+\\)*\\'"
  "How a file's name ends, perhaps with the numbers of a line and a column.")

(defun affedit--length-without (bytes signs &optional end)
  "The length of BYTES up to END, without those of SIGNS that stand last."
  (let ((length (or end (length bytes))))
    (while (and (> length 0) (memq (aref bytes (1- length)) signs))
      (setq length (1- length)))
    length))

(defun affedit--address-p (piece)
  "Whether PIECE is an e-mail address, the name of a host with www, or a path."
  (let ((at (string-match-p "@" piece)))
    (cond
     (at (< 0 at (1- (length piece))))
     ((string-prefix-p "www." piece) t)
     ((not (string-match-p "[/\\]" piece)) nil)
     (t (or (and (string-match affedit--root piece) (< (match-end 0) (length piece)))
            (and (string-suffix-p "/" piece) (> (length piece) 1))
            (string-match-p affedit--extension (substring piece (max 0 (- (length piece) 24)))))))))

(defun affedit--piece-spans (run base)
  "The paths, names of hosts and e-mail addresses of RUN, which begins at byte BASE of its line."
  (let ((from 0) spans)
    (while (string-match affedit--piece run from)
      (setq from (match-end 0))
      (let* ((piece (match-string 0 run))
             (place (+ base (match-beginning 0)))
             ;; Of `--own=a/b' only the value may be a path.
             (equals (cl-position ?= piece :from-end t))
             (start (string-match-p affedit--behind-signs piece (if equals (1+ equals) 0)))
             (stop (affedit--length-without piece affedit--after-path)))
        (when (and (< start stop) (affedit--address-p (substring piece start stop)))
          (push (cons (+ place start) (+ place stop)) spans))))
    (nreverse spans)))

(defun affedit--address-end (chunk colon)
  "Where the address of CHUNK ends that has its `://' at COLON.
A bracket that closes more than the address opens is none of it, nor are signs at its end."
  (let ((end (length chunk)))
    (dolist (brackets '("[()]" "[][]"))
      (let ((depth 0) (from colon))
        (while (and (string-match brackets chunk from) (< (match-beginning 0) end))
          (setq from (match-end 0)
                depth (+ depth (if (memq (aref chunk (1- from)) '(?\( ?\[)) 1 -1)))
          (when (< depth 0)
            (setq end (1- from))))))
    (max (affedit--length-without chunk affedit--after-address end) (+ colon 3))))

(defun affedit--chunk-spans (chunk base)
  "What is no prose in CHUNK, a run without blanks that begins at byte BASE of its line."
  (let* ((colon (string-match-p "://" chunk))
         (start (and colon (affedit--length-without chunk affedit--scheme-signs colon))))
    (if (not (and colon (< start colon)))
        (affedit--piece-spans chunk base)
      (let ((end (affedit--address-end chunk colon)))
        (nconc (affedit--piece-spans (substring chunk 0 start) base)
               (list (cons (+ base start) (+ base end)))
               (affedit--piece-spans (substring chunk end) (+ base end)))))))

(defun affedit--addresses (text)
  "The spans (START . STOP) of the line TEXT that are no prose, in the order of the line."
  (let ((bytes (encode-coding-string text 'utf-8-emacs-unix t)) (case-fold-search nil) (from 0) chunks)
    (when (string-match-p affedit--address-sign bytes)
      (while (string-match affedit--chunk bytes from)
        (setq from (match-end 0))
        (let ((chunk (match-string 0 bytes)) (base (match-beginning 0)))
          (when (string-match-p affedit--address-sign chunk)
            (push (affedit--chunk-spans chunk base) chunks)))))
    (apply #'nconc (nreverse chunks))))

(defun affedit--prose-marks (text marks)
  "Leave out of MARKS, in the order of the line TEXT, what is in an address."
  (let ((spans (affedit--addresses text)))
    (if (not spans)
        marks
      (cl-remove-if (lambda (mark)
                      (while (and spans (< (cdar spans) (cdr mark)))
                        (pop spans))
                      (and spans (<= (caar spans) (car mark))))
                    marks))))

;; The major mode.

(defun affedit--in-comment-or-string-p ()
  "Whether the word that ends at point is in a comment or in a string."
  (nth 8 (syntax-ppss (max (point-min) (1- (point))))))

(defun affedit--find-predicate ()
  "The predicate of the buffer's major mode, or nil.
That for flyspell is a property of the mode, or of one that it derives from."
  ;; Those of modes of Emacs are set where flyspell is loaded.
  (require 'flyspell nil t)
  (let ((mode major-mode) predicate)
    (while (and mode (not (setq predicate (get mode 'flyspell-mode-predicate))))
      (setq mode (get mode 'derived-mode-parent)))
    (or predicate
        (and (derived-mode-p 'prog-mode) #'affedit--in-comment-or-string-p))))

(defun affedit--verified-p (position)
  "Whether the word that ends at POSITION is to be marked, by the major mode.
Where its predicate fails, the word is."
  (save-excursion
    (save-match-data
      (goto-char position)
      (condition-case nil
          (funcall affedit--predicate)
        (error t)))))

(provide 'affedit-scope)

;; Local Variables:
;; byte-compile-docstring-max-column: 160
;; End:

;;; affedit-scope.el ends here
